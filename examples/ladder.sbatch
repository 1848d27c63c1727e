#!/usr/bin/env bash
#SBATCH --job-name=ladder
#SBATCH --cpus-per-task=1
#SBATCH --time=1:00:00
#SBATCH --requeue
#SBATCH --open-mode=append
#SBATCH --output=slurm-%a.log
# Serves the files of a folder that examples/split.py wrote, as a job array of Slurm: task N plays
# row N of FOLDER/files.tsv with FOLDER/arena, and leaves a transcript. All nodes must see FOLDER.
#
#     sbatch --chdir=FOLDER --array=1-8 --mem=870 examples/ladder.sbatch
#
# split.py prints the two words in the middle: the number of files, and the memory in MB of the one
# that needs most (2 MiB a block and 64 MB). A task whose node fails is queued again. One whose
# transcript is there ends at once, so the same line, given again, plays what is missing.
set -eu

IFS=$'\t' read -r file blocks _ < <(sed -n "$((SLURM_ARRAY_TASK_ID + 1))p" files.tsv)
transcript=${file%.jsonl}.transcript
[ ! -e "$transcript" ] || exit 0

# A transcript appears whole or not at all.
part=$transcript.$SLURM_JOB_ID.${SLURM_RESTART_COUNT:-0}
./arena serve "$file" --blocks "$blocks" --workers 1 > "$part"
mv "$part" "$transcript"
