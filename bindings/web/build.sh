#!/bin/sh
# build.sh OUT: EXPERIMENTAL. Builds the library for WebAssembly into OUT/pothatch.wasm, its interface as OUT/interface.json, and the page
# OUT/desk.html, which has both in it. It is the module of the proved build with another target: no proof covers that change, nor the
# compiler's WebAssembly back end. Pointers have 32 bits, lengths 64. RT as for install.sh; MODULE names the module where it is not that of
# tools/build (target/staticlib/libpothatch.bc).
set -eu
out=${1:?"use: build.sh OUT"}
here=$(cd "$(dirname "$0")" && pwd)
mkdir -p "$out"
out=$(cd "$out" && pwd)
clang=$(dirname "$("${RT:-rt}" doc)")/toolchain/bin/clang
work=$(mktemp -d)
trap 'rm -rf "$work"' EXIT
cd "$here/../.."

if [ -z "${MODULE:-}" ]; then
  tools/build pothatch
  MODULE=target/staticlib/libpothatch.bc
fi
layout="e-m:e-p:32:32-p10:8:8-p20:8:8-i64:64-i128:128-n32:64-S128-ni:1:10:20"
"$clang" -S -emit-llvm -O0 -Xclang -disable-llvm-passes -Wno-override-module "$MODULE" -o "$work/module.ll"
sed -e "/^target datalayout/s/\".*\"/\"$layout\"/" -e '/^target triple/s/".*"/"wasm32-unknown-unknown"/' \
  -e 's/ "target-cpu"="[^"]*"//; s/ "target-features"="[^"]*"//; s/ "tune-cpu"="[^"]*"//' \
  -e 's/ "probe-stack"="[^"]*"//; s/ "stack-probe-size"="[^"]*"//' -f "$here/../narrow.sed" \
  "$work/module.ll" >"$work/web.ll"
"$clang" --target=wasm32-unknown-unknown -Oz -mbulk-memory -ffunction-sections -fdata-sections -Wno-override-module -c -x ir \
  "$work/web.ll" -o "$work/web.o"
# The kit's one program is compiler and linker; by this name it links WebAssembly.
ln -s "$clang" "$work/wasm-ld"
python3 "$here/interface.py" bindings/pothatch.h >"$out/interface.json"
"$work/wasm-ld" --no-entry --gc-sections --strip-all --stack-first -z stack-size=65536 --export=__heap_base \
  $(python3 "$here/interface.py" --exports bindings/pothatch.h) "$work/web.o" -o "$out/pothatch.wasm"
python3 "$here/page.py" "$out"
echo "built $out/pothatch.wasm ($(wc -c <"$out/pothatch.wasm") bytes) and $out/desk.html ($(wc -c <"$out/desk.html") bytes)"
