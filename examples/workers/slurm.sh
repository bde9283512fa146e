#!/bin/sh
# A worker on a node of a Slurm cluster: one task with one processor, which has univmon on its path.
exec srun --quiet --ntasks=1 --cpus-per-task=1 univmon "$@"
