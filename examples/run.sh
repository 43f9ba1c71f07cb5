#!/usr/bin/env bash
# Compiles the C example against the static library, runs it, and runs the program on the printed cases. It stops at a wrong result.
set -eu
cd "$(dirname "$0")/.."
library=target/staticlib/libbrimclif.a
[ -e "$library" ] || bash tools/static_library.sh >/dev/null
out=$(mktemp -d)
trap 'rm -rf "$out"' EXIT
"${CC:-cc}" -std=c11 -O2 -Wall -Wextra -Werror -Iinclude examples/two_tetrahedra.c "$library" -o "$out/two_tetrahedra"
"$out/two_tetrahedra"
for expected in examples/cases/*.out; do
    ./run "${expected%.out}.in" | cmp - "$expected"
    echo "$(basename "$expected" .out): as printed"
done
