#!/usr/bin/env bash
# Packs a file again and again, with the first, second, third .. allocation made to fail:
#   tools/fail_allocations.sh FILE MOST
# Each run must end with the right answer (an allocation may be tried a second time, or there may be fewer), or with
# `want of memory` and nothing written.
case "${1:-}" in --help) sed -n '2,/^[^#]/{/^#/s/^# \{0,1\}//p}' "$0"; exit ;; esac
set -eu
top=$(cd "$(dirname "$0")/.." && pwd)
file=$(realpath "$1")
most=$2
work=$(mktemp -d)
trap 'rm -rf "$work"' EXIT

"$top/glbpack" pack <"$file" >"$work/wanted" 2>"$work/line"
cd "$top/crates/glbpack"
refused=0
for number in $(seq 1 "$most"); do
    rt try --fail-alloc "$number" -- pack <"$file" >"$work/told" 2>&1 || true
    if grep -aq 'ended status=4' "$work/told" && grep -aq '^want of memory$' "$work/told" && ! grep -aqF 'glTF' "$work/told"; then
        refused=$((refused + 1))
    elif ! grep -aq 'ended status=0' "$work/told" || ! grep -aqFf "$work/line" "$work/told"; then
        echo "allocation $number: another ending"
        cat "$work/told"
        exit 1
    fi
done
echo "$most allocations failed in turn: $refused runs ended with want of memory and nothing written, the others with the right answer"
