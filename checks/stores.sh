#!/bin/sh
# usage: stores.sh STORES
# The trial on the machine code's stores, after a trial of the trial: a right stand-in passes, those with a flaw do not.
# Exits with 77 if the system does not allow it.
set -u
stores=$1
log=$(mktemp) || exit 1
trap 'rm -f "$log"' EXIT
trap 'exit 1' HUP INT TERM

# ends_with STATUS FLAW
ends_with() {
    "$stores" "$2" >"$log" 2>&1
    status=$?
    [ "$status" -eq 77 ] && cat "$log" >&2 && exit 77
    if [ "$status" -ne "$1" ]; then
        cat "$log" >&2
        echo "stores: the stand-in '$2' ended with $status and not with $1" >&2
        exit 1
    fi
}

ends_with 0 right
for flaw in pair halves order missing; do
    ends_with 1 "$flaw"
done
exec "$stores"
