#!/bin/sh
#SBATCH --array=0-7
#SBATCH --output=task-%a.out
# Runs programs over traces, under Slurm: each of 8 tasks does each eighth line of a list. docs/tools/many.md has the calls.
#
#   sbatch eighths.sh [LIST]
#
# LIST, runs.txt where none is named, has a program, a tab and a trace a line. Of each run TRACE.cov has the counts, TRACE.cover what was not
# taken, and TRACE.said what was told. Each task appends the status and the trace of each run that ended to a file of its own. What has a
# TRACE.cov is not done again.
task=$SLURM_ARRAY_TASK_ID
tab=$(printf '\t')
awk -v task="$task" 'NR % 8 == task' "${1:-runs.txt}" | while IFS=$tab read -r program trace; do
    [ ! -e "$trace.cov" ] || continue
    "${SNL:-snl}" cover --trace "$trace" --counts "$trace.cov" "$program" >"$trace.cover" 2>"$trace.said" </dev/null
    printf '%s\t%s\n' "$?" "$trace" >>"task-$task.statuses"
done
