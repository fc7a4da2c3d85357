#!/usr/bin/env bash
# The address ledger beside an SQLite table in memory with the same two rules (Debian's libsqlite3-dev), on the same calls in one run: nanoseconds a
# call and their ratio. Prints a table and judges nothing; each figure is the least of seven runs. With an argument, the library libbench.a of
# another state of this repository, that one is timed in the same run too; all its other symbols are made local, since both have the same.
set -eu
other=$(realpath "${1:-/dev/null}")
cd "$(dirname "$0")/.."
tools/build bench >&2
work=$(mktemp -d)
trap 'rm -rf "$work"' EXIT
if [ $# -gt 0 ]; then
    objcopy --redefine-sym ledger_play=other_play --keep-global-symbol=other_play "$other" "$work/other.a"
    gcc -O2 -DOTHER -o "$work/ledger" bench/ledger.c target/staticlib/libbench.a "$work/other.a" -lsqlite3
else
    gcc -O2 -o "$work/ledger" bench/ledger.c target/staticlib/libbench.a -lsqlite3
fi
"$work/ledger"
