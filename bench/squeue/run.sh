#!/bin/bash
# Nanoseconds per entry by the clock, and in brackets those of processors, summed over all threads: the best of five
# measurements of each case by the clock, the candidates by turns.
set -e
cd "$(dirname "$0")"
(cd baseline && cargo build --release --offline --quiet)
others=others/target/release/others
if [ -d /usr/share/cargo/registry/tokio-1.24.2 ] && [ -d /usr/share/cargo/registry/parking_lot-0.12.1 ]; then
    (cd others && cargo build --release --offline --quiet)
else
    echo "without parking_lot and tokio: apt install librust-parking-lot-dev librust-tokio-dev" >&2
    others=
fi
(cd ../../crates/squeue_bench && rt run >/dev/null 2>&1)
squeue=../../crates/squeue_bench/out/squeue_bench
base=baseline/target/release/baseline
times=$(mktemp -d)
trap 'rm -r "$times"' EXIT
TIMEFORMAT='%U %S'

# The first word names the candidate. A line of its file has the time by the clock and the processor time of an entry, and
# what was counted. The processor time is the whole process's, with the making of its items.
measure() {
    candidate=$1
    shift
    { time "$@" >"$times/.said"; } 2>"$times/.used"
    cat "$times/.said" "$times/.used" |
        awk 'NR == 1 { entries = $2; nanos = $4; total = $6 }
            NR == 2 { printf "%.1f %.1f %s\n", nanos / entries, ($1 + $2) * 1e9 / entries, total }' >>"$times/$candidate"
}

best() {
    if [ -e "$times/$1" ]; then
        sort -n "$times/$1" | head -1 | awk '{ printf "%s (%.0f)", $1, $2 }'
    else
        printf -- "–"
    fi
}

echo "load at the start: $(cut -d ' ' -f 1-3 /proc/loadavg)"
echo
echo "| threads | squeues | chain | process | fill | Mutex | channel | combining | segments | parking_lot | tokio |"
echo "|---|---|---|---|---|---|---|---|---|---|---|"
while read -r threads squeues chain entries; do
    rm -f "$times"/*
    for _ in 1 2 3 4 5; do
        measure process $squeue "$threads" "$squeues" "$chain" "$entries" process
        measure fill $squeue "$threads" "$squeues" "$chain" "$entries" fill
        for kind in mutex channel combining segments; do
            measure $kind $base $kind "$threads" "$squeues" "$chain" "$entries"
        done
        if [ -n "$others" ]; then
            measure parking $others parking "$threads" "$squeues" "$chain" "$entries"
            measure tokio $others tokio "$threads" "$squeues" "$chain" "$entries"
        fi
    done
    if [ "$(cut -d ' ' -f 3 "$times"/* | sort -u | wc -l)" != 1 ]; then
        echo "the candidates counted different totals" >&2
        exit 1
    fi
    echo "| $threads | $squeues | $chain | $(best process) | $(best fill) | $(best mutex) | $(best channel) | $(best combining) | $(best segments) | $(best parking) | $(best tokio) |"
done <<CASES
1 1 1 400000
1 1 32 4000000
2 1 1 400000
2 1 32 4000000
4 1 1 400000
4 1 32 4000000
16 1 1 400000
16 1 32 4000000
1 4 1 400000
1 4 32 4000000
2 4 1 400000
2 4 32 4000000
4 4 1 400000
4 4 32 4000000
CASES
