#!/bin/sh
# usage: tools.sh TOOL...
# Says which tools are missing; a tool may have words behind it.
missing=0
for tool in "$@"; do
    if ! command -v "${tool%% *}" >/dev/null 2>&1; then
        echo "missing: ${tool%% *} (make check needs it)" >&2
        missing=1
    fi
done
exit "$missing"
