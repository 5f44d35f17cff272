#!/usr/bin/env bash
# Compares the program with the oracle, an independent implementation in Python, on generated files:
#   tools/compare_with_oracle.sh ORACLE COUNT SEED..
# ORACLE is the folder with gen.py and compare.py. For each seed COUNT files are generated whose JSON has no views, and
# the files for each command among COUNT of every kind. Any difference in status, output, report or put files fails.
case "${1:-}" in --help) sed -n '2,/^[^#]/{/^#/s/^# \{0,1\}//p}' "$0"; exit ;; esac
set -euo pipefail
top=$(cd "$(dirname "$0")/.." && pwd)
oracle=$(cd "$1" && pwd)
count=$2
shift 2

"$top/glbpack" >/dev/null 2>&1 || true # builds it where it is missing
cases=$(mktemp -d)
trap 'rm -rf "$cases"' EXIT
failed=0

# compares SEED LEVEL KIND GENERATED..; the level is the oracle's name of the rules that hold once that command is there
compare() {
    local seed=$1 level=$2 kind=$3
    shift 3
    python3 "$oracle/gen.py" "$count" "$seed" "$cases/$seed" "$@" >/dev/null
    python3 "$oracle/compare.py" "$cases/$seed" --level "$level" --program "$top/crates/glbpack/out/glbpack" >"$cases/told" || true
    # The usage names the commands that there are, and the oracle's at a level only those of that level.
    local told usages
    told=$(tail -n 1 "$cases/told")
    usages=$(grep -c " differs in report expected 2 b'usage: .* found 2 b'usage: " "$cases/told" || true)
    echo "seed $seed, $kind: $told, $usages of them in the commands that the usage names"
    if ! [[ "$told" =~ ^$usages\ of\ [1-9][0-9]*\ cases\ differ$ ]]; then
        cat "$cases/told"
        failed=1
    fi
    rm -rf "${cases:?}/$seed"
}

for seed in "$@"; do
    compare "$seed" R16 "JSON without views" --small
    compare "$seed" R16 "every kind, packed" --only pack
    compare "$seed" R16 "every kind, unpacked" --only unpack
    compare "$seed" R16 "every kind, analysed" --only analyse
    compare "$seed" R20 "every kind, listed" --only lists
    compare "$seed" R20 "every kind, bundled" --only bundle
    compare "$seed" R20 "every kind, paired" --only pair
    compare "$seed" R20 "every kind, meshlets" --only meshlets
done
exit "$failed"
