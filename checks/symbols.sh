#!/bin/sh
# usage: symbols.sh HEADER ARCHIVE
# What the header says of the archive: it defines the functions declared and no other, calls nothing but memcpy and
# memset, and keeps nothing between calls, having no data to write to.
set -u
room=$(mktemp -d) || exit 1
trap 'rm -rf "$room"' EXIT
trap 'exit 1' HUP INT TERM

nm -g "$2" >"$room/names" || exit 1
sed -n 's/^uint64_t \(zilpanud_[a-z_]*\)(.*/\1/p' "$1" | sort >"$room/declared"
sed -n 's/^[0-9a-f]* [A-TV-Z] //p' "$room/names" | sort >"$room/defined"
if ! diff "$room/declared" "$room/defined" >"$room/differences"; then
    echo "header: declared alone ('<') or in the archive alone ('>'):" >&2
    cat "$room/differences" >&2
    exit 1
fi
if sed -n 's/^ *U //p' "$room/names" | grep -v -x -e memcpy -e memset >&2; then
    echo 'header: the archive calls these functions too' >&2
    exit 1
fi
size "$2" >"$room/sizes" || exit 1
if awk 'NR > 1 { bytes += $2 + $3 } END { exit bytes == 0 }' "$room/sizes"; then
    cat "$room/sizes" >&2
    echo 'header: the archive has data' >&2
    exit 1
fi
