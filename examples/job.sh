#!/bin/sh
# Starts the job of a journal, or goes on with it: job.sh SOURCE JOURNAL [WORD ..], where the words are those of `run`.
#
# It may be given again at any time, also while it runs. Its status and what it prints are those of `run` or of `resume`.
source=$1
journal=$2
shift 2
workflow show --journal "$journal" > /dev/null 2>&1
if [ $? -eq 6 ]; then
    exec workflow run --source "$source" --journal "$journal" "$@"
fi
exec workflow resume --journal "$journal"
