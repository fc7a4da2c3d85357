#!/bin/sh
# chip.sh OUT [CALLS]: EXPERIMENTAL. Builds the library for an ARM Cortex-M4 (CHIP=cortex-m0plus or cortex-m33 for these) into
# OUT/libpothatch_chip.a, with its text sizes in OUT/sizes and the stack depth of each call in OUT/stack.txt; with a file of recorded calls
# (c/played.c) it plays them under qemu-arm. It is the
# module of the proved build with another target: no proof covers that change, nor the compiler's ARM back end. Lengths are 64 bits on the
# chip too. RT as for install.sh; MODULE names the module where it is not that of tools/build (target/staticlib/libpothatch.bc).
set -eu
out=${1:?"use: chip.sh OUT [CALLS]"}
here=$(cd "$(dirname "$0")" && pwd)
mkdir -p "$out"
out=$(cd "$out" && pwd)
chip=${CHIP:-cortex-m4}
case $chip in
  cortex-m0plus) triple=thumbv6m-none ;;
  cortex-m4) triple=thumbv7em-none ;;
  cortex-m33) triple=thumbv8m.main-none ;;
  *) echo "chip.sh: CHIP is cortex-m0plus, cortex-m4 or cortex-m33"; exit 1 ;;
esac
calls=${2:+$(cd "$(dirname "$2")" && pwd)/$(basename "$2")}
tools=$(dirname "$("${RT:-rt}" doc)")/toolchain
cd "$here/.."

if [ -z "${MODULE:-}" ]; then
  tools/build pothatch
  MODULE=target/staticlib/libpothatch.bc
fi
cp "$MODULE" "$out/module.bc"
clang=$tools/bin/clang
"$clang" -S -emit-llvm -O0 -Xclang -disable-llvm-passes -Wno-override-module "$out/module.bc" -o "$out/module.ll"
sed -e '/^target datalayout/s/".*"/"e-m:e-p:32:32-Fi8-i64:64-v128:64:128-a:0:32-n32-S64"/' \
  -e "/^target triple/s/\".*\"/\"$triple-unknown-eabi\"/" \
  -e 's/ "target-cpu"="[^"]*"//; s/ "target-features"="[^"]*"//; s/ "tune-cpu"="[^"]*"//' \
  -e 's/ "probe-stack"="[^"]*"//; s/ "stack-probe-size"="[^"]*"//' -f "$here/narrow.sed" "$out/module.ll" >"$out/chip.ll"
"$clang" --target="$triple-eabi" -mcpu="$chip" -mfloat-abi=soft -O2 -ffunction-sections -fdata-sections -Wno-override-module \
  -c -x ir "$out/chip.ll" -o "$out/chip.o"
rm -f "$out/libpothatch_chip.a"
"$tools/bin/llvm-ar" rcs "$out/libpothatch_chip.a" "$out/chip.o"
echo "built $out/libpothatch_chip.a"
command -v arm-linux-gnueabi-gcc >/dev/null || exit 0

# The text that each call alone brings along, and that of all.
arm-linux-gnueabi-size "$out/chip.o" | awk 'NR == 2 { print "all", $1 }' >"$out/sizes"
for name in $(sed -n 's/^uint32_t \(pothatch_[a-z0-9_]*\)(.*/\1/p' "$here/pothatch.h"); do
  arm-linux-gnueabi-ld --gc-sections -e "$name" -u "$name" --unresolved-symbols=ignore-all -o "$out/one" "$out/chip.o" 2>/dev/null
  arm-linux-gnueabi-size "$out/one" | awk -v name="$name" 'NR == 2 { print name, $1 }' >>"$out/sizes"
done
arm-linux-gnueabi-nm -u "$out/chip.o" | awk '{ print "asks for", $2 }'
# The programs are for Linux on ARM; without the attributes of the M profile the object links into them.
arm-linux-gnueabi-objcopy --remove-section .ARM.attributes "$out/chip.o" "$out/linked.o"
for name in stack played fields edges; do
  arm-linux-gnueabi-gcc -static -std=c11 -D_GNU_SOURCE -O2 -I"$here" "$here/c/$name.c" "$out/linked.o" -o "$out/$name"
done
command -v qemu-arm >/dev/null || exit 0
qemu-arm -cpu max "$out/stack" | tee "$out/stack.txt"
qemu-arm -cpu max "$out/fields"
qemu-arm -cpu max "$out/edges"
if [ -n "$calls" ]; then qemu-arm -cpu max "$out/played" "$calls"; fi
