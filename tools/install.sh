#!/usr/bin/env bash
# Puts the proved program into a folder, as one executable file, and the library for C beside it:
#   tools/install.sh FOLDER [--program-alone]
# They are proved and built first where they must; lib/libglbpack.a, include/glbpack.h and include/meshoptimizer.h want a C compiler.
# What the program links is told; it needs no toolchain where it runs.
set -euo pipefail
if [ $# -lt 1 ] || [ $# -gt 2 ] || [ "$1" = --help ] || [ "${2:---program-alone}" != --program-alone ]; then
    sed -n '2,5s/^# //p' "$0"
    [ "${1:-}" = --help ] && exit 0
    exit 2
fi
top=$(cd "$(dirname "$0")/.." && pwd)
program=$top/crates/glbpack/out/glbpack

status=0
"$top/glbpack" </dev/null >/dev/null 2>"${TMPDIR:-/tmp}/glbpack-install.$$" || status=$?
told=$(cat "${TMPDIR:-/tmp}/glbpack-install.$$")
rm -f "${TMPDIR:-/tmp}/glbpack-install.$$"
if [ "$status" -ne 2 ]; then # without words it says how it is used
    printf '%s\n' "$told" >&2
    exit 70
fi

mkdir -p "$1"
# Written beside and renamed, so that no half of it is ever there under its name.
cp "$program" "$1/.glbpack.$$"
chmod 755 "$1/.glbpack.$$"
mv "$1/.glbpack.$$" "$1/glbpack"
echo "$1/glbpack links:"
ldd "$1/glbpack" 2>/dev/null || echo "    nothing"

[ $# -eq 2 ] && exit 0
if ! command -v "${CC:-cc}" >/dev/null || ! command -v objcopy >/dev/null; then
    echo "no C compiler here: the library for C is left out"
    exit 0
fi
mkdir -p "$1/lib" "$1/include"
bash "$top/tools/build_library.sh" "$1/lib/.libglbpack.$$"
mv "$1/lib/.libglbpack.$$" "$1/lib/libglbpack.a"
cp "$top/library/glbpack.h" "$top/library/meshoptimizer.h" "$1/include/"
