#!/usr/bin/env bash
# Builds the library for C, libglbpack.a, from the proved crate gp_library_c and library/calls.c: tools/build_library.sh FILE
# The crate and those below it are proved first where they must; where GLBPACK_PROVED is 1, those below it are taken as `rt ci` has just
# left them, and the crate alone is proved. Of all names in the library only those of the two headers can be linked.
set -euo pipefail
if [ $# -ne 1 ] || [ "$1" = --help ]; then
    sed -n '2,4s/^# //p' "$0"
    [ "${1:-}" = --help ] && exit 0
    exit 2
fi
top=$(cd "$(dirname "$0")/.." && pwd)
made=$(mktemp -d)
trap 'rm -rf "$made"' EXIT
cc=${CC:-cc}

prove_all() {
    cd "$top/crates/gp_library_c"
    rt check && rt lib && cp out/libgp_library_c.a "$made/"
}

# The same call of the compiler as that of `rt lib`, over the libraries that stand in the crates' folders.
prove_one() {
    local kit name rlib words
    kit=$(cd "$(dirname "$(realpath "$(command -v rt)")")/.." && pwd)
    words=(--extern "std=$kit/rlibs/std.rlib" -L "dependency=$kit/rlibs")
    for name in $(sed -n 's/^gp_library_c staticlib: *//p' "$top/crates.txt"); do
        words+=(--extern "$name=$top/crates/$name/out/rlib/$name.rlib")
    done
    for rlib in "$top"/crates/*/out/rlib; do
        words+=(-L "dependency=$rlib")
    done
    cd "$top/crates/gp_library_c"
    "$kit/bin/rattle" build --crate-name gp_library_c --crate-type staticlib src/lib.rt "${words[@]}" \
        --antt-project "$kit/rattle/logic/antt-project.json" --logic-built "$kit/logic_built" --toolchain "$kit/toolchain" \
        --backend llvm --jobs 4 -o "$made/libgp_library_c.a"
}

prove=prove_all
[ "${GLBPACK_PROVED:-}" = 1 ] && prove=prove_one
("$prove") >"$made/log" 2>&1 || { tail "$made/log" >&2; exit 70; }
"$cc" -std=c11 -O2 -fPIC -Wall -Wextra -Werror -I"$top/library" -c "$top/library/calls.c" -o "$made/calls.o"
"$cc" -r -nostdlib -o "$made/glbpack.o" "$made/calls.o" -Wl,--whole-archive "$made/libgp_library_c.a" -Wl,--no-whole-archive
objcopy --wildcard --keep-global-symbol='glbpack_*' --keep-global-symbol='meshopt_*' "$made/glbpack.o"
ar rcs "$made/libglbpack.a" "$made/glbpack.o"
mv "$made/libglbpack.a" "$1"
