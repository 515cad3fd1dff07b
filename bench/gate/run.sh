#!/bin/sh
# Nanoseconds per turn: the best of five measurements of each case, the three locks by turns.
set -e
cd "$(dirname "$0")"
(cd baseline && cargo build --release --offline --quiet)
(cd ../../crates/squeue_bench && rt run >/dev/null 2>&1)
gate=../../crates/squeue_bench/out/squeue_bench
base=baseline/target/release/baseline

measure() {
    "$@" | awk '{ printf "%.1f\n", $4 / $2 }'
}

echo "| threads | rounds | gate | Mutex | ticket lock |"
echo "|---|---|---|---|---|"
while read -r threads turns rounds; do
    : >gate.times; : >mutex.times; : >ticket.times
    for _ in 1 2 3 4 5; do
        measure $gate gate "$threads" "$turns" "$rounds" >>gate.times
        measure $base mutex "$threads" "$turns" "$rounds" >>mutex.times
        measure $base ticket "$threads" "$turns" "$rounds" >>ticket.times
    done
    echo "| $threads | $rounds | $(sort -n gate.times | head -1) | $(sort -n mutex.times | head -1) | $(sort -n ticket.times | head -1) |"
done <<CASES
1 2000000 0
1 500000 100
2 500000 0
2 250000 100
4 250000 0
4 100000 100
16 5000 0
16 5000 100
CASES
rm -f gate.times mutex.times ticket.times
