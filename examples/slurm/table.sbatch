#!/bin/bash
#SBATCH --job-name=cutlab-table
#SBATCH --output=table.txt
#SBATCH --cpus-per-task=1
#SBATCH --requeue

# Joins the shares of a study once their array has ended, however its tasks did, and prints the table to table.csv. What a
# task did not run is run here:
#
#     array=$(sbatch --parsable --array=1-8 share.sbatch plan.json 8 4)
#     sbatch --dependency=afterany:"$array" table.sbatch plan.json
set -euo pipefail

plan=$1
files=()
for file in share*.cut; do
  # A task that was killed before it began has left a file without a study.
  if cutlab status "$file" > /dev/null 2>&1; then
    files+=("$file")
  fi
done
if [ ! -s study.cut ] && [ ${#files[@]} -gt 0 ]; then
  # A join that was killed has left a part of it.
  rm -f study.new
  cutlab join --which study.new "${files[@]}" < "$plan"
  mv study.new study.cut
fi
cutlab run --checkpoint study.cut --workers "${SLURM_CPUS_PER_TASK:-1}" < "$plan" > table.csv
