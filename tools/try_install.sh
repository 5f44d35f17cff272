#!/usr/bin/env bash
# Tries the installed program from an empty folder in an empty environment: tools/try_install.sh
set -euo pipefail
if [ "${1:-}" = --help ]; then
    sed -n '2s/^# //p' "$0"
    exit 0
fi
top=$(cd "$(dirname "$0")/.." && pwd)
place=$(mktemp -d)
trap 'rm -rf "$place"' EXIT
bash "$top/tools/install.sh" "$place/bin" --program-alone >/dev/null
mkdir "$place/empty"
cd "$place/empty"
for example in "$top"/examples/*.gl*; do
    [[ "$example" == *.md ]] && continue
    env -i "$place/bin/glbpack" pack <"$example" >"$place/packed" 2>"$place/line"
    env -i "$place/bin/glbpack" unpack <"$place/packed" >"$place/unpacked" 2>>"$place/line"
done
[ -z "$(ls -A .)" ]
echo "the installed program packed and unpacked every example"
