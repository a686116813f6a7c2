#!/bin/bash
# A survey as a Slurm array: each task runs its part of the jobs by GNU parallel on its own processors.
#
#   arrange-survey FOLDER.. --primes 31,32003 --ask free --out OUT --only plan
#   sbatch --array=1-16 slurm-array.sh OUT
#   arrange-survey --out OUT --only collect
#
# OUT lies on a file system that all nodes share. A part has a log of its own: sent again, it goes on where it was cut off.
# ARRANGE names the program, and arrange-survey is on the PATH of the nodes (or named in SURVEY).
#SBATCH --job-name=arrange-survey
#SBATCH --array=1-16
#SBATCH --nodes=1
#SBATCH --ntasks=1
#SBATCH --cpus-per-task=4
#SBATCH --mem-per-cpu=2200M
#SBATCH --time=04:00:00
#SBATCH --output=arrange-survey-%A-%a.log
set -eu
: "${1:?the folder of the survey}"
exec "${SURVEY:-arrange-survey}" --out "$1" --only run --quiet \
    --part "$SLURM_ARRAY_TASK_ID/$SLURM_ARRAY_TASK_COUNT" --jobs "$SLURM_CPUS_PER_TASK" \
    --seconds "${SECONDS_EACH:-60}" --megabytes "${MEGABYTES_EACH:-2000}"
