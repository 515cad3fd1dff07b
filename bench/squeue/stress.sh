#!/bin/bash
# Sixteen squeues on one processor, 200 runs: each has to end within a minute, and to count what the others of its mode count.
# So a wake that is lost shows here: where a worker sleeps beside a queue that nobody else empties, the run doesn't end.
set -e
cd "$(dirname "$0")"
(cd ../../crates/squeue_bench && rt run >/dev/null 2>&1)
squeue=../../crates/squeue_bench/out/squeue_bench
runs=${1:-200}
for ((run = 1; run <= runs; run++)); do
    for mode in process nodrain fill; do
        said=$(timeout 60 taskset -c 0 $squeue 3 16 1 9216 $mode) || {
            echo "run $run, $mode: no answer" >&2
            exit 1
        }
        total=${said##* }
        if [ "${wanted:=$total}" != "$total" ]; then
            echo "run $run, $mode: counted $total, not $wanted" >&2
            exit 1
        fi
    done
done
echo "$runs runs of each mode ended, and counted $wanted"
