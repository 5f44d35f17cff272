#!/usr/bin/env bash
# Runs the program with standard streams and folders that fail, one at a time, and without words:
#   tools/try_streams.sh PROGRAM
# Each run must end with the exit status that the table in README.md has for it, and leave on the other streams what
# stands there. Any difference is told, and fails.
case "${1:-}" in --help) sed -n '2,/^[^#]/{/^#/s/^# \{0,1\}//p}' "$0"; exit ;; esac
set -euo pipefail
top=$(cd "$(dirname "$0")/.." && pwd)
program=$(realpath "$1")
file=$top/examples/points.glb
if [ ! -x "$program" ]; then
    echo "there is no program $1"
    exit 1
fi

work=$(mktemp -d)
trap 'rm -rf "$work"' EXIT
output=$work/output
report=$work/report
exec 3>&1 # where differences are told: the streams of a run are its own
failed=0
runs=0

differs() {
    echo "$name: $1" >&3
    failed=1
}

# ends NAME STATUS WORD..: runs the program on the streams of this call
ends() {
    name=$1
    local wanted=$2 status=0
    shift 2
    "$program" "$@" 3>&- || status=$?
    [ "$status" -eq "$wanted" ] || differs "exit status $status in place of $wanted"
    runs=$((runs + 1))
}

# tells LINE: what the run before has left on its report
tells() {
    printf '%s\n' "$1" | cmp -s - "$report" || differs "the report is '$(cat "$report")' in place of '$1'"
}

# writes FILE: what the run before has left on its output
writes() {
    cmp -s "$1" "$output" || differs "the output has $(wc -c <"$output") bytes, and isn't the wanted one of $(wc -c <"$1")"
}

ends "nothing fails" 0 pack <"$file" >"$output" 2>"$report"
cp "$output" "$work/packed"
grep -Eqx "packed views [0-9]+ of [0-9]+ in $(wc -c <"$file") out $(wc -c <"$output")" "$report" ||
    differs "the report is '$(cat "$report")'"

ends "output full" 3 pack <"$file" >/dev/full 2>"$report"
tells "output failed"
ends "output full, unpacking" 3 unpack <"$file" >/dev/full 2>"$report"
tells "output failed"
ends "output closed" 3 pack <"$file" >&- 2>"$report"
tells "output failed"

ends "input closed" 3 pack <&- >"$output" 2>"$report"
tells "input failed"
writes /dev/null
ends "input a directory" 3 pack <"$top" >"$output" 2>"$report"
tells "input failed"
writes /dev/null

ends "report full" 3 pack <"$file" >"$output" 2>/dev/full
writes "$work/packed"
ends "report closed" 3 pack <"$file" >"$output" 2>&-
writes "$work/packed"

ends "no words" 2 <"$file" >"$output" 2>"$report"
tells "usage: glbpack pack / unpack / analyse / sample N / lists / bundle F / pair F S / meshlets"
writes /dev/null

# ---- over a folder: the program runs in it, and puts what it puts there

folder=$work/folder
cp -r "$top/examples/beside" "$folder"
cd "$folder"

ends "bundled" 0 bundle cube.gltf <&- >"$output" 2>"$report"
cp "$output" "$work/bundled"
ends "bundled, output full" 3 bundle cube.gltf >/dev/full 2>"$report"
tells "output failed"
ends "bundled, report full" 3 bundle cube.gltf >"$output" 2>/dev/full
writes "$work/bundled"
ends "bundled, no such file" 1 bundle none.gltf >"$output" 2>"$report"
tells "missing file"
writes /dev/null
ends "bundled, a folder" 3 bundle . >"$output" 2>"$report"
tells "folder failed"
writes /dev/null

ends "paired" 0 pair cube.gltf small <&- >"$output" 2>"$report"
writes /dev/null
for part in bin gltf; do
    [ -s "small.$part" ] || differs "small.$part isn't there"
done
ends "paired, bundled again" 1 bundle small.gltf >"$output" 2>"$report"
tells "refused 13 AlreadyPacked"
mkdir stuck.bin dead.gltf
ends "paired, no place for the BIN file" 3 pair cube.gltf stuck >"$output" 2>"$report"
tells "folder failed"
[ ! -e stuck.gltf ] || differs "stuck.gltf was put"
ends "paired, no place for the text" 3 pair cube.gltf dead >"$output" 2>"$report"
tells "folder failed"
cmp -s small.bin dead.bin || differs "dead.bin isn't what small.bin is"
ends "paired, no stem" 2 pair cube.gltf a/b >"$output" 2>"$report"

mv cube.bin elsewhere.bin
ends "bundled, no buffer" 1 bundle cube.gltf >"$output" 2>"$report"
tells "missing buffer 0"
writes /dev/null

# The longest text that is taken has 64 MiB.
long() {
    printf '{"asset":{"version":"2.0"}}'
    head -c $((67108864 - 27 + $1)) /dev/zero | tr '\0' ' '
}
long 0 >long.gltf
ends "the longest text" 0 bundle long.gltf >"$output" 2>"$report"
long 1 >long.gltf
ends "a longer text" 1 bundle long.gltf >"$output" 2>"$report"
tells "refused 7 JsonTooLarge"
writes /dev/null

[ "$failed" -eq 0 ] || exit 1
echo "$runs runs with standard streams and folders that fail or none: each ended as it must"
