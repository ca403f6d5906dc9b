#!/bin/sh
# Makes the parts of a batch as an array job of Slurm: task I makes the part of line I of the plan, in the folder parts.
#     sbatch --wait --array=1-5 batch.slurm PLAN TEXT LIMIT
#SBATCH --job-name=batch
#SBATCH --ntasks=1
#SBATCH --output=parts/task-%a.log
set -eu
line=$(sed -n "${SLURM_ARRAY_TASK_ID}p" "$1")
first=${line% *}
count=${line#* }
sh part.sh "$2" "$first" "$count" "$3" >"parts/$first"
