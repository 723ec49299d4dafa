#!/bin/sh
# usage: manual.sh MANUAL PROGRAM...
# Runs the examples of a manual, in their order, in a folder of their own, with these programs on the path. Its blocks:
#   ```text NAME       a file of that name, with a dot in it
#   ```console         a line with '$ ' before it is a command, and the lines below it are what it prints, standard error
#                      included
#   ```sh ```c ```rust a script or a program; the block ```text printed behind it has the last lines that it prints. What
#                      stands behind an index and a value there is the manual's own
# Programs are compiled by CC with INCLUDE and ARCHIVE, and by RUSTC with RLIB, which the environment gives.
set -u
manual=$1
shift
room=$(mktemp -d) || exit 1
trap 'rm -rf "$room"' EXIT
trap 'exit 1' HUP INT TERM
mkdir "$room/bin" "$room/steps" "$room/here" || exit 1
for program in "$@"; do
    ln -s "$(realpath "$program")" "$room/bin/" || exit 1
done
PATH=$room/bin:$PATH

# each command with its output to a pair of files, numbered in their order
awk -v steps="$room/steps" -v here="$room/here" '
    function step() {
        at = sprintf("%s/%03d", steps, ++count)
        printf "" > (at ".wanted")
    }
    /^```/ && inside { inside = ""; next }
    /^```text printed$/ { inside = "printed"; next }
    /^```text [^ ]+[.][^ ]+$/ { inside = "file"; file = here "/" $2; printf "" > file; next }
    /^```sh$/ { inside = "script"; step(); printf "" > (at ".last"); next }
    /^```(c|rust)$/ {
        inside = "program"
        step()
        printf "" > (at ".last")
        source = at "." ($0 == "```c" ? "c" : "rs")
        compile = "\"$RUSTC\" --edition 2021 --extern zilpanud=\"$RLIB\" %s -o %s && %s\n"
        if ($0 == "```c") compile = "$CC -std=c99 -I\"$INCLUDE\" %s \"$ARCHIVE\" -o %s && %s\n"
        printf compile, source, at ".program", at ".program" > (at ".command")
        next
    }
    /^```console$/ { inside = "console"; next }
    /^```/ { inside = "other"; next }
    inside == "file" { print > file }
    inside == "script" { print > (at ".command") }
    inside == "program" { print > source }
    inside == "printed" { print > (at ".wanted") }
    inside == "console" && /^\$ / { step(); print substr($0, 3) > (at ".command"); next }
    inside == "console" { print > (at ".wanted") }
' "$manual" || exit 1

# the lines of a file without what the manual says of a store
stores() {
    sed -E 's/^([0-9a-f]{4} [0-9a-f]{16}) .*/\1/' "$1"
}

count=0
for command in "$room"/steps/*.command; do
    step=${command%.command}
    (cd "$room/here" && sh "$command" >"$step.printed" 2>&1 </dev/null)
    if [ -e "$step.last" ]; then
        stores "$step.wanted" >"$step.stores"
        [ -s "$step.stores" ] || { echo "manual: what '$(head -n 1 "$command")' prints is not said" >&2; exit 1; }
        tail -n "$(wc -l <"$step.stores")" "$step.printed" >"$step.last"
        mv "$step.stores" "$step.wanted" && mv "$step.last" "$step.printed"
    fi
    if ! diff "$step.wanted" "$step.printed" >"$step.differs"; then
        echo "manual: '$(cat "$command")' does not print what $manual says:" >&2
        cat "$step.differs" >&2
        exit 1
    fi
    count=$((count + 1))
done
[ "$count" -gt 0 ] || { echo "manual: there is no example in $manual" >&2; exit 1; }

# the pictures that it shows are those that its examples draw
for picture in $(sed -n 's/^!\[.*\](\(.*\.svg\))$/\1/p' "$manual"); do
    cmp -s "$(dirname "$manual")/$picture" "$room/here/$(basename "$picture")" ||
        { echo "manual: $picture is not what is drawn" >&2; exit 1; }
done
echo "manual: $count examples of $(basename "$manual") ok"
