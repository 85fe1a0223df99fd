#!/bin/sh
#SBATCH --array=0-99
#SBATCH --output=many-%a.out
# Each task leaves the lines of the others empty, so that a line keeps its number.
awk -v n="$SLURM_ARRAY_TASK_COUNT" -v task="$SLURM_ARRAY_TASK_ID" '{ print (NR % n == task ? $0 : "") }' many.list | hwtool-judge -j "${SLURM_CPUS_PER_TASK:-1}" -
