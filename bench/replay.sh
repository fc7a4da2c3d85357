#!/usr/bin/env bash
# How many records a second the tool replay plays, on recorded traces from disk of a million and of a quarter of a million bytes: a unit that joins, hears
# frames, takes updates and polls, over and over. Beside it is a peer in the same run, bench/replay_peer.c: it walks the same records and asks their
# kinds, lengths and unused bytes, and makes no call.
# The last row has the same million bytes as HEX from standard input. The script prints a table and judges nothing.
# Each trace is named so often in one run that the program's start does not count; of five runs the quickest counts.
set -eu
cd "$(dirname "$0")/.."
work=$(mktemp -d)
trap 'rm -rf "$work"' EXIT

[ -x target/bin/replay ] || tools/build replay >&2
python3 bench/gen_traces.py "$work"
cc -O2 -o "$work/peer" bench/replay_peer.c

# measure NAME RECORDS BYTES COMMAND..: a row of the table, RECORDS and BYTES being those of the whole run. Processor time counts, so that what else
# the machine does matters less.
measure() {
    local name=$1 records=$2 size=$3 best='' took
    shift 3
    for _ in 1 2 3 4 5; do
        took=$({ TIMEFORMAT='%3U %3S' && time "$@" >/dev/null; } 2>&1 | awk '{ print ($1 + $2) * 1000 }')
        if [ -z "$best" ] || [ "$took" -lt "$best" ]; then best=$took; fi
    done
    awk -v n="$name" -v r="$records" -v b="$size" -v t="$best" \
        'BEGIN { s = t / 1000; printf "%-36s %8.3f %12.0f %10.1f %8.1f\n", n, s, r / s, s * 1e9 / r, b / s / 1e6 }'
}

# times N WORD: the word, N times
times() { for _ in $(seq "$1"); do printf '%s ' "$2"; done; }

from_hex() { target/bin/replay <"$work/hex"; }

printf '%-36s %8s %12s %10s %8s\n' trace seconds records/s ns/record MB/s
read -r many bytes <"$work/million.size"
read -r few quarter <"$work/quarter.size"
# shellcheck disable=SC2046
{
    measure "replay, a million bytes" $((many * 40)) $((bytes * 40)) target/bin/replay $(times 40 "$work/million")
    measure "replay, a quarter" $((few * 160)) $((quarter * 160)) target/bin/replay $(times 160 "$work/quarter")
    measure "peer, a million bytes, no calls" $((many * 40)) $((bytes * 40)) "$work/peer" $(times 40 "$work/million")
}
measure "replay, a million bytes as HEX" $((many * 10)) $((bytes * 10)) from_hex
