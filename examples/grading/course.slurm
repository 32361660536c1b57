#!/bin/bash
#SBATCH --job-name=grading
#SBATCH --array=1-16
#SBATCH --time=10
#SBATCH --output=out/share.%a.log
# Grades a course as a Slurm array, in a folder that all nodes see, where out/ is and rvgrade is on the path:
#
#     mkdir -p out
#     job=$(sbatch --parsable course.slurm TESTS.toml submissions/*.s)
#     sbatch --dependency=afterany:$job --wrap \
#         'rvgrade --merge out/share.*.json --json out/course.json --junit out/course.xml'
#
# A share with wrong submissions has status 1, which is no failure of the job.
rvgrade --quiet --shard "$SLURM_ARRAY_TASK_ID/$SLURM_ARRAY_TASK_COUNT" \
    --json "out/share.$SLURM_ARRAY_TASK_ID.json" "$@"
status=$?
[ "$status" -le 1 ]
