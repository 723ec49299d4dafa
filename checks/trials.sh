#!/bin/sh
# usage: trials.sh FOLDER CARGO...
# The scripts of calls and the sweep of FOLDER, rust/trials: the tests of their player, what they print on the library and
# on the twin, against what is stored; and rows.py, where there is python3, against the rows stored of the sweep.
set -u
checks=$(dirname "$0")
folder=$1
shift

rows='and rows.py the rows of the sweep'
if ! command -v python3 >/dev/null 2>&1; then
    rows='but rows.py was not run: there is no python3'
elif ! python3 "$folder/asked_sweep/rows.py" | diff - "$folder/asked_sweep/stdout" >&2; then
    echo 'trials: rows.py does not print asked_sweep/stdout' >&2
    exit 1
fi

# in one shell, so that one line is said of all of it
exec sh "$checks/quiet.sh" trials "ours and the twin print what is stored, $rows:" "$folder" sh -ec '
    "$@" test --offline --locked --release
    for engine in ours twin; do
        "$@" run --offline --locked --release --quiet -- "$engine"
    done' trials.sh "$@"
