#!/bin/sh
# An array job of Slurm: `sbatch ckrt-hunt.sbatch guest.bin` in a folder that all nodes share. Each task hunts the guest by
# 1,000 seeds of its own: task 1 by 1 to 1000, task 2 by 1001 to 2000, and so on. Its table is in TASK.hunt, whole or not there.
# One that is preempted leaves in TASK.begun the table of the seeds that it had run by then, and begins anew.
# `join_hunts *.hunt`, once all have ended, makes one table of them, which of at most 64 outcomes of a kind is that of `ckrt hunt --seeds 1-8000`.
#SBATCH --job-name=ckrt-hunt
#SBATCH --array=1-8
#SBATCH --ntasks=1
#SBATCH --requeue
#SBATCH --time=04:00:00

task=$SLURM_ARRAY_TASK_ID

ckrt hunt "$1" --seeds "$((task * 1000 - 999))-$((task * 1000))" --rows --table "$task.begun" > "$task.hunt.part"
status=$?

# 0: all is well. 8: several outcomes. 9: one that is none to be glad of. Anything else is a fault, and the table isn't whole.
case $status in
    0 | 8 | 9) mv "$task.hunt.part" "$task.hunt" && rm -f "$task.begun" ;;
    *) exit $status ;;
esac
