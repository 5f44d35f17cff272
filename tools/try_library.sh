#!/usr/bin/env bash
# Tries the installed library for C: tools/try_library.sh [COUNT [SEED]]
# Programs in C are built against it with every warning an error: tools/library/try.c codes COUNT generated buffers (10000), beside
# libmeshoptimizer where the system has it, and runs the commands in two threads; library/example.c unpacks, as README shows it.
set -euo pipefail
if [ "${1:-}" = --help ]; then
    sed -n '2,4s/^# //p' "$0"
    exit 0
fi
top=$(cd "$(dirname "$0")/.." && pwd)
place=$(mktemp -d)
trap 'rm -rf "$place"' EXIT
cc=${CC:-cc}
bash "$top/tools/install.sh" "$place" >/dev/null

# build SOURCE PROGRAM
build() {
    "$cc" -std=c11 -O2 -Wall -Wextra -Werror -I"$place/include" "$1" "$place/lib/libglbpack.a" -pthread -ldl -o "$2"
}
build "$top/tools/library/try.c" "$place/try"
build "$top/library/example.c" "$place/example"
if [[ "$(<"$top/README.md")" != *"$(sed 's/^./    &/' "$top/library/example.c")"* ]]; then
    echo "README shows another example than library/example.c"
    exit 1
fi
for header in glbpack.h meshoptimizer.h; do
    printf '#include <%s>\nint main() { return 0; }\n' "$header" >"$place/header.cc"
    "${CXX:-c++}" -Wall -Wextra -Werror -I"$place/include" "$place/header.cc" -o "$place/header"
done
if nm -g --defined-only "$place/lib/libglbpack.a" | grep ' [A-Z] ' | grep -vE ' (glbpack_(pack|unpack|analyse|free)|meshopt_(de|en)code(VertexBuffer|IndexBuffer|IndexSequence)(Bound)?)$'; then
    echo "the library has other names than those of its headers"
    exit 1
fi

"$place/try" streams "${1:-10000}" "${2:-1}"

# try COMMAND FILE: the call ends as the program does
try() {
    local status=0 wanted=0
    "$place/try" "$1" "$2" >"$place/out" 2>"$place/line" || status=$?
    "$place/glbpack" "$1" <"$2" >"$place/wanted" 2>"$place/wanted_line" || wanted=$?
    if [ "$status" -ne "$wanted" ] || ! cmp -s "$place/out" "$place/wanted" || ! cmp -s "$place/line" "$place/wanted_line"; then
        echo "$1 of $2: the answer $status where the program ends with $wanted, or another output or line"
        exit 1
    fi
}
: >"$place/empty.glb"
head -c 1000 "$top/examples/torus.glb" >"$place/cut.glb"
# Zeros, whose streams are far shorter than a quarter of them.
python3 - "$place/zeros.gltf" <<'ZEROS'
import base64, json, sys
size = 1 << 20
asset = {
    "asset": {"version": "2.0"},
    "buffers": [{"byteLength": size, "uri": "data:application/octet-stream;base64," + base64.b64encode(bytes(size)).decode()}],
    "bufferViews": [{"buffer": 0, "byteLength": size}],
    "accessors": [{"bufferView": 0, "componentType": 5126, "type": "VEC4", "count": size // 16}],
}
json.dump(asset, open(sys.argv[1], "w"))
ZEROS
files=0
for file in "$top"/examples/*.gl* "$place"/{empty.glb,cut.glb,zeros.gltf}; do
    for command in pack unpack analyse; do
        try "$command" "$file"
    done
    if "$place/glbpack" pack <"$file" >"$place/packed.glb" 2>/dev/null; then
        try unpack "$place/packed.glb"
        try analyse "$place/packed.glb"
        "$place/example" <"$place/packed.glb" >"$place/out" 2>"$place/line"
        "$place/glbpack" unpack <"$place/packed.glb" 2>"$place/wanted_line" | cmp - "$place/out"
        cmp "$place/line" "$place/wanted_line"
    fi
    files=$((files + 1))
done
echo "the library packed, unpacked and analysed $files files as the program does"

# Each allocation fails in turn: the program of README ends as it does with memory, or with want of memory and nothing written.
"$cc" -O2 -shared -fPIC -o "$place/failing.so" "$top/tools/failing_malloc.c" -ldl
"$place/glbpack" pack <"$top/examples/cube.glb" >"$place/packed.glb" 2>/dev/null
"$place/example" <"$place/packed.glb" >"$place/wanted" 2>"$place/wanted_line"
# fail AT: the example, in which the allocation of this number fails
fail() {
    LD_PRELOAD="$place/failing.so" FAIL_AT="$1" FAIL_COUNT="$place/count" "$place/example" <"$place/packed.glb" >"$place/out" 2>"$place/line"
}
fail 1000000000
asked=$(<"$place/count")
refused=0
for at in $(seq 1 "$asked"); do
    status=0
    fail "$at" || status=$?
    if [ "$status" -eq 4 ] && [ ! -s "$place/out" ] && [ "$(<"$place/line")" = "want of memory" ]; then
        refused=$((refused + 1))
    elif [ "$status" -ne 0 ] || ! cmp -s "$place/out" "$place/wanted" || ! cmp -s "$place/line" "$place/wanted_line"; then
        echo "allocation $at: the answer $status, or another output or line"
        exit 1
    fi
done
echo "of $asked allocations that failed in turn $refused ended in want of memory"
