#!/bin/sh
#SBATCH --job-name=undrwyth --requeue --open-mode=append
# SPDX-License-Identifier: MIT
# One task of a job array: it answers one part. undrwyth-slurm submits it, with a list of the numbers of parts, one per line; the task takes the line that
# has its own number. The answers get their name only when the whole part was answered, so a task may fail and run again, here or on another node.
part=$(sed -n "$((SLURM_ARRAY_TASK_ID + 1))p" "$UNDRWYTH_LIST") && [ -n "$part" ] || exit 1
exec "${UNDRWYTH:-undrwyth}" parts answer "$UNDRWYTH_COMMAND" "$UNDRWYTH_PARTS" "$part"
