#!/usr/bin/env bash
# Tries that ./glbpack runs no program that isn't proved: tools/try_build.sh
# In a copy with a toolchain that fails, an older program must not be run, and the status must be 70.
case "${1:-}" in --help) sed -n '2,/^[^#]/{/^#/s/^# \{0,1\}//p}' "$0"; exit ;; esac
set -euo pipefail
if [ $# -gt 0 ]; then
    sed -n '2,3s/^# //p' "$0"
    exit 0
fi
top=$(cd "$(dirname "$0")/.." && pwd)
copy=$(mktemp -d)
trap 'rm -rf "$copy"' EXIT

mkdir -p "$copy/bin" "$copy/crates/glbpack/out" "$copy/crates/glbpack/src" "$copy/tools" "$copy/examples"
cp "$top/glbpack" "$copy/"
cp "$top/tools/build.py" "$top/tools/options.py" "$copy/tools/"
cp "$top/examples/scene.glb" "$copy/examples/"
echo "glbpack:" >"$copy/crates.txt"
printf '#!/bin/sh\necho an old program ran\n' >"$copy/crates/glbpack/out/glbpack"
chmod +x "$copy/crates/glbpack/out/glbpack"
sleep 1
echo "fn main() { wrong" >"$copy/crates/glbpack/src/main.rt"

# try WORDS STATUS WANTED: what ./glbpack answers where the toolchain answers so
try() {
    local words=$1 status=$2 wanted=$3 found=0 told
    printf '#!/bin/sh\n%s\nexit %s\n' "$words" "$status" >"$copy/bin/rt"
    chmod +x "$copy/bin/rt"
    told=$(PATH="$copy/bin:$PATH" "$copy/glbpack" pack </dev/null 2>&1) || found=$?
    if [ "$found" -ne "$wanted" ] || { [ "$wanted" -eq 70 ] && [[ "$told" == *"an old program ran"* ]]; }; then
        echo "a toolchain that answers $status: status $found, and: $told"
        exit 1
    fi
}

try 'echo "main.rt:1: error" >&2' 1 70
try 'echo "stopped" >&2' 2 70
try 'echo "no container"' 0 70
try 'printf glTF' 0 0
echo "no program that isn't proved was run"
