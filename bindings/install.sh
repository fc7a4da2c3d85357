#!/bin/sh
# install.sh PREFIX: proves and builds the library, and installs it under PREFIX: headers, archive, shared library, pkg-config and CMake
# files, the Rust crate, the Python package and its wheel, examples, a README, and those of the six tools that are built in target/bin.
# install.sh --uninstall PREFIX: removes what an installation put there.
# DESTDIR is put before PREFIX where files are written. RT names the toolchain's command where it is not `rt`; ARCHIVE names an archive
# that is built already. TOOLS=1 proves and builds the tools too. Nothing that is installed holds PREFIX, so the folder may be moved.
set -eu
if [ "${1:-}" = --uninstall ]; then
  root=${DESTDIR:-}${2:?"use: install.sh --uninstall PREFIX"}
  [ -f "$root/share/pothatch/installed" ] || { echo "nothing is installed in $root"; exit 1; }
  names=$(cat "$root/share/pothatch/installed")
  for name in $names; do rm -f "$root/$name"; done
  for name in $names; do (cd "$root" 2>/dev/null && rmdir -p "$(dirname "$name")" 2>/dev/null) || true; done
  rmdir "$root" 2>/dev/null || true
  echo "removed from $root"
  exit 0
fi
prefix=${1:?"use: install.sh PREFIX, or install.sh --uninstall PREFIX"}
here=$(cd "$(dirname "$0")" && pwd)
mkdir -p "${DESTDIR:-}$prefix"
root=$(cd "${DESTDIR:-}$prefix" && pwd)
cd "$here/.."
version=$(cat VERSION)
interface=${version%.*}
tools="decode simulate replay ledger cipher proxy"
if [ -z "${ARCHIVE:-}" ]; then
  tools/build pothatch
  ARCHIVE=target/staticlib/libpothatch.a
fi
if [ -n "${TOOLS:-}" ]; then tools/build $tools; fi
python3 bindings/generate.py --check
installed=$root/share/pothatch/installed
mkdir -p "$root/share/pothatch"
: >"$installed"

# put FILE NAME [MODE]: installs a file under its name below PREFIX
put() {
  mkdir -p "$root/$(dirname "$2")"
  install -m "${3:-644}" "$1" "$root/$2"
  echo "$2" >>"$installed"
}

put bindings/pothatch.h include/pothatch.h
put bindings/pothatch_inline.h include/pothatch_inline.h
put "$ARCHIVE" lib/libpothatch.a
shared=libpothatch.so.$interface
"${CC:-cc}" -shared -Wl,-soname,"$shared" -o "$root/lib/libpothatch.so.$version" \
  -Wl,--whole-archive "$root/lib/libpothatch.a" -Wl,--no-whole-archive
ln -sf "libpothatch.so.$version" "$root/lib/$shared"
ln -sf "$shared" "$root/lib/libpothatch.so"
for name in "libpothatch.so.$version" "$shared" libpothatch.so; do echo "lib/$name" >>"$installed"; done
work=$(mktemp -d)
trap 'rm -rf "$work"' EXIT
for file in pothatch.pc pothatch-static.pc pothatch-config.cmake pothatch-config-version.cmake; do
  sed "s/@VERSION@/$version/g; s/@INTERFACE@/$interface/g" "bindings/package/$file" >"$work/$file"
done
put "$work/pothatch.pc" lib/pkgconfig/pothatch.pc
put "$work/pothatch-static.pc" lib/pkgconfig/pothatch-static.pc
put "$work/pothatch-config.cmake" lib/cmake/pothatch/pothatch-config.cmake
put "$work/pothatch-config-version.cmake" lib/cmake/pothatch/pothatch-config-version.cmake
for file in Cargo.toml build.rs src/lib.rs src/calls.rs src/refusal.rs src/sys.rs examples/board.rs tests/library.rs; do
  put "bindings/rust/pothatch/$file" "share/pothatch/rust/pothatch/$file"
done
put LICENSE share/pothatch/rust/pothatch/LICENSE
for file in __init__.py _api.py py.typed; do put "bindings/python/pothatch/$file" "share/pothatch/python/pothatch/$file"; done
put bindings/python/fixture.py share/pothatch/python/fixture.py
wheel=$(python3 bindings/python/wheel.py "$root/lib/libpothatch.so.$version" "$work")
put "$work/$wheel" "share/pothatch/$wheel"
put bindings/c/board.c share/pothatch/examples/board.c
put LICENSE share/pothatch/LICENSE
put VERSION share/pothatch/VERSION

# manual TOOL: a manual page from what the tool says of itself
manual() {
  printf '.TH POTHATCH-%s 1 "" "pothatch %s"\n.SH NAME\n' "$(echo "$1" | tr a-z A-Z)" "$version"
  "target/bin/$1" --help | sed -e 's/\\/\\e/g; s/-/\\-/g; s/^\([.'"'"']\)/\\\&\1/' |
    sed -e "1s/^$1: \(.*\) (docs.TOOLS.md)\.\$/pothatch\\\\-$1 \\\\- \1/" -e '1a .SH DESCRIPTION' -e '2,$s/$/\n.br/'
}

put bindings/package/README.md share/pothatch/README.md
put docs/FIRMWARE.md share/pothatch/FIRMWARE.md
put docs/PERFORMANCE.md share/pothatch/PERFORMANCE.md
missing=
found=
for tool in $tools; do
  if [ -x "target/bin/$tool" ]; then
    found=1
    put "target/bin/$tool" "bin/pothatch-$tool" 755
    manual "$tool" >"$work/manual"
    put "$work/manual" "share/man/man1/pothatch-$tool.1"
  else
    missing="$missing $tool"
  fi
done
if [ -n "$found" ]; then put docs/TOOLS.md share/pothatch/TOOLS.md; fi
if [ -n "$missing" ]; then echo "tools that are not built and so not installed (TOOLS=1 builds them):$missing"; fi
echo share/pothatch/installed >>"$installed"
echo "installed $version in $root"
