#!/bin/sh
# usage: waits.sh STOW
# `stow waits` on days whose turns are worked out by hand.
set -u
stow=$1
room=$(mktemp -d) || exit 1
trap 'rm -rf "$room"' EXIT
trap 'exit 1' HUP INT TERM

fail() {
    echo "waits: $*" >&2
    exit 1
}

# ticket DESK STEPS...: hands in number 1, whose arguments are 0
ticket() {
    printf 01%02x%016x "$1" 1
    printf %016x 0 0 0 0 0 0 0 0
    shift
    printf %04x "$@"
    echo
}

# ends_with STATUS PRINTED SAID: what ended with $? has printed this, and said this on standard error, where a file that
# was given has its name before it
ends_with() {
    status=$?
    printed=$(cat "$room/out")
    said=$(sed "s|^stow waits: $room/day: |stow waits: |" "$room/error")
    [ "$status" -eq "$1" ] || fail "'$day' ended with $status: $printed$said"
    [ "$printed" = "$2" ] || fail "'$day' prints: $printed"
    [ "$said" = "$3" ] || fail "'$day' says: $said"
}

# counts STATUS PRINTED SAID: of the day in $room/day, given as a file and on standard input
counts() {
    day=$(tail -n 1 "$room/day")
    "$stow" waits "$room/day" >"$room/out" 2>"$room/error"
    ends_with "$@"
    "$stow" waits <"$room/day" >"$room/out" 2>"$room/error"
    ends_with "$@"
}

# Document 01's ticket has 6 + 4 + 6 + 3 turns; its second takes bay 3, its fifteenth gives it back. Desk 0 is first in
# each round, so that desk 1 waits in rounds 2 to 14.
two_desks() {
    echo 02
    ticket 0 1 3 0 0  3 24 0 5  2 3 0 0  8 0 0 0
    ticket 1 1 3 0 0  3 24 0 5  2 3 0 0  8 0 0 0
}
whole='bay  turns that waited for it
  3                        13

desk  turns that waited  turns that did not
   0                  0                  19
   1                 13                  19'
{ two_desks; echo 04ffff; } >"$room/day"
counts 0 "$whole" ''
{ two_desks; echo 04ffff; echo 0g; echo 0200ffff; } >"$room/day"
behind='nothing behind it was read; the numbers are those up to there'
counts 1 "$whole" "stow waits: line 5 is malformed (14), and $behind"

# Desk 7 waits for bay 63, which desk 0 has, with all but its first turn of 65,535, and then with 65,535 more. Desk 3
# takes bay 0 with six turns, and waits for bay 63 with its eighth.
{ echo 08
  ticket 0 1 63 0 0  2 63 0 0  8 0 0 0
  ticket 7 1 63 0 0  2 63 0 0  8 0 0 0
  ticket 3 1 0 0 0  1 63 0 0  2 63 0 0  2 0 0 0  8 0 0 0
  echo 02000002
  echo 0207ffff
  echo 0207ffff
  echo 02030008
  printf 0200ffff
} >"$room/day"
counts 0 'bay  turns that waited for it
 63                    131070

desk  turns that waited  turns that did not
   0                  0                  15
   3                  1                   7
   7             131069                   1' ''

# turns of an idle desk, and of one that there is not
printf '01\n0200ffff\n02010001\n' >"$room/day"
nothing='no bay was waited for

no desk made a turn'
counts 0 "$nothing" ''
: >"$room/day"
counts 0 "$nothing" ''
echo 09 >"$room/day"
counts 1 "$nothing" "stow waits: no board has as many desks as line 1 says (10), and $behind"

day='two files'
"$stow" waits "$room/day" "$room/day" >"$room/out" 2>"$room/error"
ends_with 2 '' 'stow waits: usage: stow waits [OPTION ..] [DAY]'
"$stow" waits "$room/none" >"$room/out" 2>"$room/error"
status=$?
[ "$status" -eq 2 ] && [ ! -s "$room/out" ] && grep -q "^stow waits: $room/none: " "$room/error" || fail "no file: $status"
"$stow" waits <"$room" >"$room/out" 2>"$room/error"
status=$?
[ "$status" -eq 2 ] && [ ! -s "$room/out" ] && grep -q '^stow waits: standard input: ' "$room/error" ||
    fail "a folder: $status"
if [ -w /dev/full ]; then
    "$stow" waits "$room/day" >/dev/full 2>"$room/error"
    status=$?
    [ "$status" -eq 2 ] && grep -q '^stow waits: standard output: ' "$room/error" || fail "no room to print: $status"
fi
echo 'stow: the waits of recorded days as worked out by hand'
