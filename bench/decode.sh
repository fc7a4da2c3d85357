#!/usr/bin/env bash
# How many lines a second the tool decode answers, on its vectors repeated to a million lines: all of them, and those with an accepted payload.
# On the latter it is beside peers that read the same payloads in the same run: libcbor (Debian's libcbor0.8) by way of bench/peer.c, and
# cbor2 (Debian's python3-cbor2) by way of bench/peer.py. The peers read the data item alone: they know no CoJP, and write one word to a line.
# (Damaged payloads are not given to the peers: libcbor sets memory aside for whatever a damaged head announces, gigabytes at times.)
# The script prints a table and judges nothing. Each program runs three times, its answers thrown away, and the quickest run counts.
set -eu
cd "$(dirname "$0")/.."
lines=${LINES_TO_READ:-1000000}
work=$(mktemp -d)
trap 'rm -rf "$work"' EXIT

[ -x target/bin/decode ] || tools/build decode >&2
sed '/^# Lines of tools/,$d' crates/decode/stdin >"$work/vectors"
# each line that is answered is beside its answer
awk '{ t = $0; sub(/\r$/, "", t); gsub(/^ +| +$/, "", t) } t == "" || t ~ /^#/ { next } { getline said <"crates/decode/stdout" } said ~ /^accepted/' \
    "$work/vectors" >"$work/accepted"

# repeated NAME: the file NAME, over and over, to that many lines
repeated() { while cat "$work/$1"; do :; done 2>/dev/null | head -n "$lines" >"$work/input"; }

# measure NAME COMMAND..: a row of the table
measure() {
    name=$1
    shift
    best=''
    for _ in 1 2 3; do
        begun=$(date +%s%N)
        "$@" <"$work/input" >/dev/null
        took=$(($(date +%s%N) - begun))
        if [ -z "$best" ] || [ "$took" -lt "$best" ]; then best=$took; fi
    done
    awk -v n="$name" -v l="$lines" -v b="$(stat -c %s "$work/input")" -v t="$best" \
        'BEGIN { s = t / 1e9; printf "%-40s %8.2f %10.0f %8.1f %10.0f\n", n, s, l / s, b / s / 1e6, b / l }'
}

printf '%-40s %8s %10s %8s %10s\n' "$lines lines" seconds lines/s MB/s bytes/line
repeated vectors
measure "decode, all vectors" target/bin/decode
repeated accepted
measure "decode, accepted payloads" target/bin/decode
library=$(ldconfig -p 2>/dev/null | awk '/libcbor\.so/ { print $NF; exit }')
if [ -n "$library" ] && cc -O2 -o "$work/peer" bench/peer.c "$library" 2>/dev/null; then
    measure "libcbor, accepted payloads, item alone" "$work/peer"
else
    echo "libcbor is not installed, or there is no C compiler: no row for it (apt install libcbor0.8)"
fi
if python3 -c 'import cbor2' 2>/dev/null; then
    measure "cbor2, accepted payloads, item alone" python3 bench/peer.py
else
    echo "cbor2 is not installed: no row for it (apt install python3-cbor2)"
fi
