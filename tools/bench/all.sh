#!/usr/bin/env bash
# Every measurement of docs/BENCHMARKS.md but that of the gate, in one run, on one machine: a heading and a table each.
case "${1:-}" in --help) sed -n '2,/^[^#]/{/^#/s/^# \{0,1\}//p}' "$0"; exit ;; esac
set -eu
tools=$(cd "$(dirname "$0")/.." && pwd)

"$tools/../glbpack" >/dev/null 2>&1 || true # builds it where it is missing
grep -m 1 'model name' /proc/cpuinfo || true
uptime
printf '\n## Reading and printing JSON\n\n'
python3 "$tools/bench_texts.py"
printf '\n## Reading assets\n\n'
python3 "$tools/bench_assets.py"
printf '\n## Packing and unpacking buffer views\n\n'
python3 "$tools/bench_views.py"
printf '\n## Packing meshes\n\n'
python3 "$tools/bench_meshes.py"
printf '\n## Unpacking streams\n\n'
python3 "$tools/bench_unpack.py"
printf '\n## Very many primitives\n\n'
python3 "$tools/bench_groups.py"
printf '\n## Many files\n\n'
python3 "$tools/bench_many.py"
printf '\n## The coders of streams\n\n'
bash "$tools/bench/run.sh"
printf '\n## Merging of records, and the order of triangles\n\n'
bash "$tools/bench/orders.sh"
printf '\n## Meshlets\n\n'
bash "$tools/bench/meshlets.sh"
uptime
