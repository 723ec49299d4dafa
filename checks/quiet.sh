#!/bin/sh
# usage: quiet.sh NAME WHAT FOLDER COMMAND...
# Runs a command in a folder: one line if it passes, all that it said if it does not.
set -u
name=$1
what=$2
folder=$3
shift 3
log=$(mktemp) || exit 1
trap 'rm -f "$log"' EXIT
trap 'exit 1' HUP INT TERM
cd "$folder" || exit 1
if "$@" >"$log" 2>&1; then
    echo "$name: $what ok"
else
    status=$?
    cat "$log" >&2
    echo "$name: FAILED with $status: $*, in $folder" >&2
    exit 1
fi
