#!/usr/bin/env bash
# Measures the coders of streams beside libmeshoptimizer, where the system has it (Debian's libmeshoptimizer-dev):
#   tools/bench/run.sh [WORD..]
# The words go to the program (streams.cc). `rt` builds the static library; all else is made in a folder that is removed.
case "${1:-}" in --help) sed -n '2,/^[^#]/{/^#/s/^# \{0,1\}//p}' "$0"; exit ;; esac
set -eu
top=$(cd "$(dirname "$0")/../.." && pwd)
made=$(mktemp -d)
trap 'rm -rf "$made"' EXIT

(cd "$top/crates/gp_library_c" && rt check >"$made/log" 2>&1 && rt lib >>"$made/log" 2>&1) || { tail "$made/log"; exit 1; }
cxx=${CXX:-g++}
if printf '#include <meshoptimizer.h>\n' | "$cxx" -E -x c++ - >/dev/null 2>&1; then
    with="-DWITH_MESHOPTIMIZER"
    their=-lmeshoptimizer
else
    with=
    their=
fi
"$cxx" -std=c++17 -O2 -Wall -Wextra $with "$top/tools/bench/streams.cc" "$top/crates/gp_library_c/out/libgp_library_c.a" $their -o "$made/streams"
"$made/streams" "$@"
