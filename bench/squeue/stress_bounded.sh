#!/bin/bash
# A squeue of little room with three rings on one processor, 200 runs of each room: each has to end within a minute, and to count
# what was brought. Most entries find the room full there, so a feed that is lost, or entered twice, shows as another total, and a
# wake that is lost as a run that doesn't end.
set -e
cd "$(dirname "$0")"
(cd ../../crates/endless_counters && rt run -- 1 64 0 >/dev/null 2>&1)
bounded=../../crates/endless_counters/out/endless_counters
runs=${1:-200}
echo "load at the start: $(cut -d ' ' -f 1-3 /proc/loadavg)"
for ((run = 1; run <= runs; run++)); do
    for room in 1 2 64; do
        said=$(timeout 60 taskset -c 0 "$bounded" 3 "$room" 0 3) || {
            echo "run $run, room $room: no answer" >&2
            exit 1
        }
        if [ "$said" != "rings 3 room $room amounts 9000 total 4495500" ]; then
            echo "run $run, room $room: $said" >&2
            exit 1
        fi
    done
done
echo "$runs runs of each room ended, and counted what was brought"
echo "load at the end: $(cut -d ' ' -f 1-3 /proc/loadavg)"
