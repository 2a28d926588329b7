#!/bin/bash
#SBATCH --job-name=cutlab-share
#SBATCH --output=share-%a.txt
#SBATCH --cpus-per-task=1
#SBATCH --requeue

# One share of a study for each task of an array, in the folder that the job was submitted from, which every node sees.
# Eight shares of a plan, in blocks of 4 trials, which divide its repeats:
#
#     sbatch --array=1-8 share.sbatch plan.json 8 4
#
# A task that is killed, requeued or submitted again goes on from what its file holds.
set -euo pipefail

plan=$1
shares=$2
piece=${3:-16}
exec cutlab share "$SLURM_ARRAY_TASK_ID/$shares" "share$SLURM_ARRAY_TASK_ID.cut" --piece "$piece" \
  --workers "${SLURM_CPUS_PER_TASK:-1}" < "$plan"
