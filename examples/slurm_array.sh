#!/bin/sh
#SBATCH --job-name=ion-check --output=slurm.%a.out
exec check_list "$(ls lists/list.* | sed -n "$((SLURM_ARRAY_TASK_ID + 1))p")"
