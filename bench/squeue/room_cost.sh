#!/bin/bash
# What an entry into a squeue of bounded room costs beside one into a squeue with room for all, in one program: the same threads bring
# the same items, one by one or in chains of 32, and wait where there is no room. Nanoseconds an entry by the clock, in brackets those
# of processors, and how many times the cost with room for all; the best of five measurements of each case by the clock, the rooms
# by turns. The numbers of entries in millions may be given: one by one, and in chains.
set -e
cd "$(dirname "$0")"
(cd ../../crates/squeue_bench && rt run >/dev/null 2>&1)
squeue=../../crates/squeue_bench/out/squeue_bench
single=$((${1:-1} * 1000000))
chained=$((${2:-8} * 1000000))
times=$(mktemp -d)
trap 'rm -r "$times"' EXIT
TIMEFORMAT='%U %S'

# A line of the room's file has the time by the clock and the processor time of an entry, and what was counted.
measure() {
    room=$1
    shift
    { time "$squeue" "$@" "$room" >"$times/.said"; } 2>"$times/.used"
    cat "$times/.said" "$times/.used" |
        awk 'NR == 1 { entries = $2; nanos = $4; total = $6 }
            NR == 2 { printf "%.1f %.1f %s\n", nanos / entries, ($1 + $2) * 1e9 / entries, total }' >>"$times/$room"
}

# The best of a room's measurements, and how many times the best with room for all.
best() {
    { sort -n "$times/0" | head -1; sort -n "$times/$1" | head -1; } |
        awk 'NR == 1 { all = $1 } NR == 2 { printf "%.1f (%.0f) %.2f", $1, $2, $1 / all }'
}

echo "load at the start: $(cut -d ' ' -f 1-3 /proc/loadavg)"
echo
echo "| rings | chain | mode | room for all | 65536 | 1024 | 64 |"
echo "|---|---|---|---|---|---|---|"
for mode in process fill; do
    for rings in 1 2 4; do
        for chain in 1 32; do
            entries=$((chain == 1 ? single : chained))
            rm -f "$times"/*
            for _ in 1 2 3 4 5; do
                for room in 0 65536 1024 64; do
                    measure "$room" "$rings" 1 "$chain" "$entries" "$mode"
                done
            done
            if [ "$(cut -d ' ' -f 3 "$times"/* | sort -u | wc -l)" != 1 ]; then
                echo "the rooms counted different totals" >&2
                exit 1
            fi
            echo "| $rings | $chain | $mode | $(best 0) | $(best 65536) | $(best 1024) | $(best 64) |"
        done
    done
done
echo
echo "load at the end: $(cut -d ' ' -f 1-3 /proc/loadavg)"
