#!/bin/bash
# A long run through a squeue of bounded room, ten minutes where no word is given, with the process's resident memory sampled every
# ten seconds. Memory is taken before the run begins: so from the second sample on it may not grow by more than 64 KB, else the
# script fails.
set -e
cd "$(dirname "$0")"
(cd ../../crates/endless_counters && rt run -- 1 64 0 >/dev/null 2>&1)
bounded=../../crates/endless_counters/out/endless_counters
seconds=${1:-600}
said=$(mktemp)
run=
trap 'kill $run 2>/dev/null || true; rm "$said"' EXIT

echo "load at the start: $(cut -d ' ' -f 1-3 /proc/loadavg)"
"$bounded" 3 64 "$seconds" >"$said" &
run=$!
echo
echo "| seconds | KB resident | amounts |"
echo "|---|---|---|"
begin=$(date +%s)
sleep 5
first=0
most=0
samples=0
while [ $(($(date +%s) - begin)) -lt "$seconds" ] && resident=$(awk '$1 == "VmRSS:" { print $2 }' "/proc/$run/status" 2>/dev/null) && [ -n "$resident" ]; do
    samples=$((samples + 1))
    echo "| $(($(date +%s) - begin)) | $resident | $(tail -1 "$said" | awk '{ print $4 }') |"
    if [ "$samples" = 2 ]; then
        first=$resident
    fi
    most=$((resident > most ? resident : most))
    sleep 10
done
wait "$run"
echo
tail -1 "$said"
echo "load at the end: $(cut -d ' ' -f 1-3 /proc/loadavg)"
if [ "$samples" -ge 2 ] && [ "$most" -gt $((first + 64)) ]; then
    echo "memory grew from $first to $most KB" >&2
    exit 1
fi
echo "$samples samples, at most $most KB"
