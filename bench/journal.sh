#!/usr/bin/env bash
# `ledger --journal` beside SQLite with synchronous=FULL (a rollback journal, and WAL): microseconds a grant, each on the disk before the next is
# answered. The files are in the folder given as the argument, else in the present one, which should be on a disk. Prints a table and judges nothing;
# each figure is the least of five runs. The ledger's time includes starting and ending the program.
set -eu
folder=$(realpath "${1:-.}")
cd "$(dirname "$0")/.."
grants=500
work=$(mktemp -d -p "$folder")
trap 'rm -rf "$work"' EXIT
[ -x target/bin/ledger ] || tools/build ledger >&2
gcc -O2 -o "$work/peer" bench/journal.c -lsqlite3
{
    echo "open 4096 4096"
    for ((i = 0; i < grants; i++)); do printf 'grant 00124b0014b5%04x\n' "$i"; done
} >"$work/script"
ours() {
    rm -f "$work/journal"
    local begun ended
    begun=$(date +%s%N)
    target/bin/ledger --journal "$work/journal" <"$work/script" >"$work/answers"
    ended=$(date +%s%N)
    [ "$(grep -c granted "$work/answers")" -eq "$grants" ]
    echo $(((ended - begun) / 1000 / grants))
}
theirs() {
    rm -f "$work"/table*
    "$work/peer" "$work/table" "$1" "$grants"
}
for round in 1 2 3 4 5; do
    ours >>"$work/ours"
    theirs delete >>"$work/rollback"
    theirs wal >>"$work/wal"
done
least() { sort -n "$work/$1" | head -n 1; }
echo "ledger --journal      $(least ours) us"
echo "SQLite, rollback      $(least rollback) us"
echo "SQLite, WAL           $(least wal) us"
