#!/bin/bash
#SBATCH --mem=2G
#SBATCH --cpus-per-task=1
#SBATCH --output=/dev/null
#SBATCH --error=logs/%A_%a.err
# One stage of sqshard over a Slurm array of any size, in a folder WORK that `sqshard begin` has made:
#   sbatch --chdir=WORK --array=0-$(($(wc -l < WORK/pieces) - 1))%64 --export=ALL,STAGE=scan tools/sqshard.slurm      after begin
#   sbatch --chdir=WORK --array=0-$(($(wc -l < WORK/pieces) - 1))%64 --export=ALL,STAGE=deal tools/sqshard.slurm      after plan
#   sbatch --chdir=WORK --array=0-$(($(ls WORK/shards | wc -l) - 1))%64 tools/sqshard.slurm                           after deal
# An array may be smaller than the work (MaxArraySize is often 1001): each task takes every so-many-th piece or shard. A task goes on past one
# that fails, and ends with the greatest status; its errors are in WORK/logs, a file for each task that has any. One processor a task is right: sqrun has more threads than
# that, and they take turns. plan.json says in "memory" what the largest shard needs; where that is more than 2 GB, give --mem.
# STAGE is scan, deal or serve (default); SQRUN and SQSHARD name the programs (default: on the path).
set -o pipefail
shopt -s nullglob
[[ -f captures.json && -f words && -d reports ]] || { echo "$PWD isn't a folder of sqshard: sbatch --chdir=WORK" >&2; exit 2; }
worst=0

# One piece or shard; says which one failed.
work() {
    case ${STAGE:-serve} in
    scan | deal) "${SQSHARD:-sqshard}" "$STAGE" . "$1" ;;
    serve)
        [[ -e reports/$1 ]] && return
        mkdir -p sums
        cat "shards/$1"/* | ${SQRUN:-sqrun} $(< words) > "reports/$1.part" && b2sum < "reports/$1.part" > "sums/$1" && mv "reports/$1.part" "reports/$1"
        status=$?
        ((status == 0)) || { rm -f "reports/$1.part"; echo "shard $1: ${SQRUN:-sqrun} ended with $status" >&2; }
        return "$status" ;;
    *) echo "STAGE is scan, deal or serve, and not $STAGE" >&2; return 2 ;;
    esac
}

if [[ ${STAGE:-serve} == serve ]]; then
    names=(shards/*)
    names=("${names[@]#shards/}")
else
    names=($(cut -d' ' -f1 pieces))
fi
for ((i = SLURM_ARRAY_TASK_ID; i < ${#names[@]}; i += SLURM_ARRAY_TASK_COUNT)); do
    work "${names[i]}"
    status=$?
    ((status > worst)) && worst=$status
done
said=logs/${SLURM_ARRAY_JOB_ID:-}_$SLURM_ARRAY_TASK_ID.err
[[ -f $said && ! -s $said ]] && rm -f "$said"
exit "$worst"
