#!/bin/sh
#SBATCH --job-name=vfault
#SBATCH --cpus-per-task=1
#SBATCH --requeue
# One part of a plan that `tools/farm --cut` has cut: part.sbatch FOLDER TOP [strict], as a task of an array that counts from 1.
# The report has its name only once it is whole, so a part that was killed can be run again.
set -eu
cd "$1"
shift
part=$(printf 'part-%04d' "$SLURM_ARRAY_TASK_ID")
[ ! -e "$part.report" ] || exit 0
top=$1
shift
vfault grade design.v "$part.plan" "$top" 1 "$@" > "$part.out"
mv "$part.out" "$part.report"
