#!/usr/bin/env bash
# What the image costs at the C edge: a node's calls through the library's image beside the same calls on the value, nanoseconds a call, in
# one run; then the stack depth of each call of the library and the text that it brings along. Prints tables and judges nothing.
# Needed: rt, gcc. RT names the toolchain's command where it is not `rt`.
set -eu
cd "$(dirname "$0")/.."
work=$(mktemp -d)
trap 'rm -rf "$work"' EXIT
tools/build bench pothatch >"$work/said" || { cat "$work/said"; exit 1; }
library=target/staticlib/libpothatch.a
gcc -O2 -std=gnu11 -Ibench bench/image.c target/staticlib/libbench.a "$library" -o "$work/image"
"$work/image"
echo
gcc -O2 -std=c11 -Ibindings bindings/c/stack.c "$library" -o "$work/stack"
echo "stack, bytes"
"$work/stack"
echo
echo "text, bytes"
for name in $(sed -n 's/^uint32_t \(pothatch_[a-z0-9_]*\)(.*/\1/p' bindings/pothatch.h); do
    ld --gc-sections -e "$name" -u "$name" --unresolved-symbols=ignore-all -o "$work/one" "$library" 2>/dev/null
    size "$work/one" | awk -v name="$name" 'NR == 2 { printf "%-36s%8d\n", name, $1 }'
done
