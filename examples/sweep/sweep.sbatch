#!/bin/bash
#SBATCH --requeue --open-mode=append --output=slurm.log
# The same by Slurm, a task for each seed, in a folder that all machines see:
#
#     SIM=$(./line_sim --where) LINE=examples/simulated/a_short_street.toml FOLDER=runs/once \
#         sbatch --array=1-200 --export=ALL examples/sweep/sweep.sbatch [OPTION..]
#
# A task whose machine dies is put back by Slurm, and runs what it has not. Called again it runs what is missing.
set -u
read -ra losses <<<"${LOSSES:-0 5 10 20 30}"
mkdir -p "$FOLDER"
part=.$SLURM_JOB_ID.${SLURM_RESTART_COUNT:-0}.part
# For examples/sweep/table, and as examples/sweep/sweep has it.
printf '%s\n' "asked $SLURM_ARRAY_TASK_MAX ${losses[*]}" "runs $(cksum <"$LINE")$([ $# -eq 0 ] || printf ' %q' "$@")" >"$FOLDER/asked$part"
mv "$FOLDER/asked$part" "$FOLDER/asked"
for loss in "${losses[@]}"; do
    result=$FOLDER/${loss}_$SLURM_ARRAY_TASK_ID.json
    [ ! -s "$result" ] || continue
    status=0
    "$SIM" measure --set place.loss="$loss" --seed "$SLURM_ARRAY_TASK_ID" "$@" <"$LINE" >"$result$part" || status=$?
    # Of the statuses of measure these have a result.
    case $status in 0 | 6 | 7) mv "$result$part" "$result" ;; *) exit $status ;; esac
done
