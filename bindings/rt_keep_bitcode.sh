#!/bin/sh
# rt_keep_bitcode.sh FILE COMMAND..: runs the command, rt or one that calls it, with a view of the kit whose compiler copies the module that it is
# handed to FILE. Nothing else of the kit differs: its own clang compiles. chip.sh and web/build.sh need the module. RT names the toolchain's
# command where it is not `rt`; the command finds the view's first in PATH and in RT.
set -eu
keep=$(cd "$(dirname "$1")" && pwd)/$(basename "$1")
shift
home=$(dirname "$("${RT:-rt}" doc)")
if [ ! -x "$home/bin/rt" ] || [ ! -x "$home/toolchain/bin/clang" ]; then echo "rt_keep_bitcode.sh: $home is no kit of Rattle"; exit 1; fi
work=$(mktemp -d)
trap 'rm -rf "$work"' EXIT
view=$work/kit

# links FROM TO BUT: links to all that is in FROM but one thing
links() {
  mkdir -p "$2"
  for f in "$1"/*; do [ "$f" = "$3" ] || ln -s "$f" "$2/"; done
}

mkdir -p "$view"
for f in "$home"/*; do case $f in */bin | */toolchain) ;; *) ln -s "$f" "$view/" ;; esac; done
links "$home/toolchain" "$view/toolchain" "$home/toolchain/bin"
links "$home/toolchain/bin" "$view/toolchain/bin" "$home/toolchain/bin/clang"
# rt finds its kit from where its own file is, so it is copied
links "$home/bin" "$view/bin" ''
for f in rt rtlib.py; do rm "$view/bin/$f" && cp "$home/bin/$f" "$view/bin/"; done
# and what it keeps for all checkouts of this machine beside the kit
if [ -d "$home/../rattle-kept" ]; then ln -s "$(cd "$home/../rattle-kept" && pwd)" "$work/rattle-kept"; fi
cat >"$view/toolchain/bin/clang" <<SH
#!/bin/sh
for word in "\$@"; do case \$word in *.bc | *.ll) if [ -f "\$word" ]; then cp "\$word" "$keep"; fi ;; esac; done
exec "$home/toolchain/bin/clang" "\$@"
SH
chmod +x "$view/toolchain/bin/clang"
PATH=$view/bin:$PATH RT=$view/bin/rt "$@"
