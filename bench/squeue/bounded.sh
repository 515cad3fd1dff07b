#!/bin/bash
# Ten million entries through squeues of bounded room, beside as many through squeues with room for all: nanoseconds an entry by
# the clock, and the most memory in KB; of each case the best of three runs, the cases by turns. Each ring brings its entries one
# by one, in the mode `process`, and there is one worker.
set -e
cd "$(dirname "$0")"
(cd ../../crates/squeue_bench && rt run >/dev/null 2>&1)
(cd ../../crates/endless_counters && rt run -- 1 64 0 >/dev/null 2>&1)
all=../../crates/squeue_bench/out/squeue_bench
bounded=../../crates/endless_counters/out/endless_counters
thousands=${1:-10000}
times=$(mktemp -d)
trap 'rm -r "$times"' EXIT

# The first word names the case. A line of its file has the nanoseconds by the clock, from the start of the process to its end,
# the most memory, and what was said.
measure() {
    name=$1
    shift
    start=$(date +%s%N)
    /usr/bin/time -f %M -o "$times/.used" "$@" >"$times/.said"
    end=$(date +%s%N)
    echo "$((end - start)) $(tail -1 "$times/.used") $(tail -1 "$times/.said")" >>"$times/$name"
}

# The best run of the case in the third word.
tell() {
    sort -n "$times/$3" | head -1 | awk -v rings="$1" -v room="$2" -v entries="$4" \
        '{ printf "| %s | %s | %.1f | %s |\n", rings, room, $1 / entries, $2 }'
}

echo "load at the start: $(cut -d ' ' -f 1-3 /proc/loadavg)"
echo
echo "| rings | room | nanoseconds an entry | KB at most |"
echo "|---|---|---|---|"
for rings in 1 2 4; do
    rm -f "$times"/*
    rounds=$((thousands / rings))
    entries=$((rounds * rings * 1000))
    for _ in 1 2 3; do
        for room in 64 1024 65536; do
            measure "$room" "$bounded" "$rings" "$room" 0 "$rounds"
            if [ "$(cat "$times/.said")" != "rings $rings room $room amounts $entries total $((rounds * rings * 499500))" ]; then
                echo "rings $rings, room $room: $(cat "$times/.said")" >&2
                exit 1
            fi
        done
        measure all "$all" "$rings" 1 1 "$entries" process
    done
    for room in 64 1024 65536; do
        tell "$rings" "$room" "$room" "$entries"
    done
    tell "$rings" all all "$entries"
done
echo
echo "load at the end: $(cut -d ' ' -f 1-3 /proc/loadavg)"
