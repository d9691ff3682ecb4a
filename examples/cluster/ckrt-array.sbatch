#!/bin/sh
# An array job of Slurm: `sbatch ckrt-array.sbatch` in a folder that all nodes share, which has the guests 1.bin to 8.bin.
# Each task drives a disk of its own; the disk's lock keeps a second task off it. A task that is preempted, or whose node
# fails, is queued again; so is one whose time is nearly used up, by itself. Its output is in TASK.out, each byte once.
#SBATCH --job-name=ckrt
#SBATCH --array=1-8
#SBATCH --ntasks=1
#SBATCH --requeue
#SBATCH --open-mode=append
#SBATCH --time=04:00:00
#SBATCH --signal=B:USR1@60

task=$SLURM_ARRAY_TASK_ID

queue_again() {
    kill "$driver"
    wait "$driver"
    scontrol requeue "${SLURM_ARRAY_JOB_ID}_$task"
    exit 0
}

# A disk that is missing is made; one that is there goes on.
ckrt drive "$task.disk" --image "$task.bin" --journal 1048576 --output "$task.out" &
driver=$!
trap queue_again USR1
wait "$driver"
