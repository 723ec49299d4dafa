#!/bin/sh
# usage: example.sh EXAMPLE EXAMPLE_CUT HELD_SETS TURNS CHECK
# Plays examples/board.c on boards in a temporary folder: moves one after the other, a number given twice, too many
# boxes, damaged files, several programs at once, and a move cut after each of its stores. Then examples/held_sets.c, on
# tickets whose bays are worked out by hand, examples/turns.c, whose turns are, and the wrapper's examples/check.rs, on
# tickets whose faults are.
set -u
example=$1
cut=$2
held_sets=$3
turns=$4
check=$5
room=$(mktemp -d) || exit 1
trap 'rm -rf "$room"' EXIT
trap 'exit 1' HUP INT TERM

fail() {
    echo "example: $*" >&2
    exit 1
}

# says WANTED ARGUMENTS...: the example's output must be this
says() {
    wanted=$1
    shift
    said=$("$example" "$@") || fail "'$*' failed"
    [ "$said" = "$wanted" ] || fail "'$*' says: $said"
}

# refuses ARGUMENTS...: the example must exit with 1
refuses() {
    "$example" "$@" >"$room/refused" 2>&1
    status=$?
    [ "$status" -eq 1 ] || fail "'$*' ended with $status: $(cat "$room/refused")"
}

board=$room/board
says 'number 1: 20 boxes stowed in bay 2
number 2: 3 boxes moved
bay 2: 17 boxes; bay 5: 3 boxes; moves made: 1' "$board"
cp "$board" "$room/first"
says 'number 3: 3 boxes moved
bay 2: 14 boxes; bay 5: 6 boxes; moves made: 2' "$board"
says 'number 4: bay 2 has too few boxes, nothing moved
bay 2: 14 boxes; bay 5: 6 boxes; moves made: 2' "$board" 15
says 'number 5: 14 boxes moved
bay 2: 0 boxes; bay 5: 20 boxes; moves made: 3' "$board" 14 5
says 'number 5: done before
bay 2: 0 boxes; bay 5: 20 boxes; moves made: 3' "$board" 14 5
refuses "$board" 1 7

# what is no board is refused and left as it was
cp "$board" "$room/damaged"
printf '\2' | dd of="$room/damaged" conv=notrunc 2>"$room/dd" || fail "dd: $(cat "$room/dd")"
cp "$room/damaged" "$room/before"
refuses "$room/damaged"
cmp -s "$room/damaged" "$room/before" || fail 'a damaged board was changed'
: >"$room/empty"
refuses "$room/empty"
[ ! -s "$room/empty" ] || fail 'an empty file was changed'

# eight at once make one board and eight moves
for i in 1 2 3 4 5 6 7 8; do
    "$example" "$room/crowd" 1 >"$room/said.$i" 2>&1 &
done
wait
says 'number 10: 0 boxes moved
bay 2: 12 boxes; bay 5: 8 boxes; moves made: 9' "$room/crowd" 0
for left_over in "$room"/crowd.??????; do
    [ ! -e "$left_over" ] || fail "left over: $left_over"
done

# number 3 is cut after each of its stores, and asked for again
stores=0
: >"$room/held"
while cp "$room/first" "$board" && "$cut" "$board" "$stores"; do
    "$example" "$board" 3 3 >"$room/out" || fail "after a cut at store $stores"
    [ "$(tail -n 1 "$room/out")" = 'bay 2: 14 boxes; bay 5: 6 boxes; moves made: 2' ] ||
        fail "after a cut at store $stores: $(cat "$room/out")"
    grep 'bays held' "$room/out" >>"$room/held"
    stores=$((stores + 1))
done
[ "$stores" -eq 69 ] || fail "a move has $stores cuts and not 69"

# Of the 47 stores that the move's turns make, one bay is owed after 5 to 10 (the first take is named, with the 5th) and
# after 36 to 41 (the bay dropped first is not owned, with the 36th), both after 11 to 35 (the second take is named)
one=$(grep -c -x 'bays held since a cut: 1' "$room/held")
two=$(grep -c -x 'bays held since a cut: 2' "$room/held")
[ "$one" -eq 12 ] && [ "$two" -eq 25 ] || fail "one bay is held after $one cuts and not 12, two after $two and not 25"

# shows WANTED WORD...: held_sets must print this, and nothing on standard error
shows() {
    wanted=$1
    shift
    said=$("$held_sets" "$@" 2>"$room/error") || fail "held_sets $* ended with $?: $(cat "$room/error")"
    [ "$said" = "$wanted" ] && [ ! -s "$room/error" ] || fail "held_sets $* says: $said$(cat "$room/error")"
}

# shows_none STATUS WANTED WORD...: it must print nothing, say this on standard error and end with this status
shows_none() {
    wanted="$1 held_sets: $2"
    shift 2
    "$held_sets" "$@" >"$room/out" 2>"$room/error"
    said="$? $(cat "$room/error")"
    [ "$said" = "$wanted" ] && [ ! -s "$room/out" ] || fail "held_sets $* ends with $said$(cat "$room/out")"
}

# every kind; bays 0 and 63 are taken by steps 0 and 1 and dropped by 6 and 9
shows 'step 0  take 0                                      held: none
step 1  take 63                                     held: 0
step 2  word 514 := 1 if word 0 < word 512, else 0  held: 0 63
step 3  skip to step 6 if word 514 is 0             held: 0 63
step 4  word 0 := word 0 - word 519                 held: 0 63
step 5  word 504 := word 504 + word 519             held: 0 63
step 6  drop 0                                      held: 0 63
step 7  word 505 := 4294967295                      held: 63
step 8  word 506 := 65536                           held: 63
step 9  drop 63                                     held: 63
step 10 end                                         held: none
the check: passes' 0001000000000000 0001003f00000000 0006020200000200 0007020200060000 0005000000000207 \
    000401f801f80207 0002000000000000 000301f9ffffffff 000301fa00010000 0002003f00000000 0008000000000000

# a skip into the middle of another bay's steps, on standard input; and one to the end
printf '0001000300000000 0007001800030000\n\n\t0001000500000000\n0002000500000000  0002000300000000 0008000000000000' |
    shows 'step 0  take 3                          held: none
step 1  skip to step 3 if word 24 is 0  held: 3
step 2  take 5                          held: 3
step 3  drop 5                          held: 3 5
step 4  drop 3                          held: 3
step 5  end                             held: none
the check: 9 at step 1: a skip goes to step 3, where 3 5 are held, and not 3' || exit 1
shows 'step 0  take 3                          held: none
step 1  take 5                          held: 3
step 2  skip to step 5 if word 24 is 0  held: 3 5
step 3  drop 5                          held: 3 5
step 4  drop 3                          held: 3
step 5  end                             held: none
the check: 9 at step 2: a skip goes to step 5, where none is held, and not 3 5' \
    0001000300000000 0001000500000000 0007001800050000 0002000500000000 0002000300000000 0008000000000000

# refused with 6 and with 8: the bays are shown; with 4 and 5: there are none
shows 'step 0  take 3            held: none
step 1  word 24 := 5      held: 3
step 2  end               held: 3
the check: 6 at step 2: the step stands where no lock is held, or finishes with a lock held' \
    0001000300000000 0003001800000005 0008000000000000
shows 'step 0  take 3            held: none
step 1  word 32 := 5      held: 3
step 2  drop 3            held: 3
step 3  end               held: none
the check: 8 at step 1: the step names a cell whose lock is not held' \
    0001000300000000 0003002000000005 0002000300000000 0008000000000000
length='refused with 4: a section has 3 to 64 steps'
malformed='the step is not there, is of unknown kind, or has a field outside its range or position'
take=0001000300000000
shows_none 1 "$length" "$take" 0008000000000000
shows_none 1 "$length" </dev/null
yes "$take" | head -n 65 | shows_none 1 "$length" || exit 1
yes "$take" | head -n 64 | shows_none 1 "refused with 5 at step 63: $malformed" || exit 1
shows_none 1 "refused with 5 at step 1: $malformed" "$take" 0002004000000000 0000000000000000
yes "$take" | head -n 257 | shows_none 2 'there are more than 256 words' || exit 1
for word in '' take 000100030000000 00010003000000000 000100030000000A 0x01000300000000; do
    shows_none 2 "'$word' is not 16 hexadecimal digits (0 to 9, a to f)" "$take" "$word" "$take"
done
echo "$take ${take}0" | shows_none 2 "'${take}0' is not 16 hexadecimal digits (0 to 9, a to f)" || exit 1

# A take and a drop have 6 turns, kinds 3 to 6 have 4, a skip 1, the end 3; from the bottom up. In the second ticket step
# 4 goes on at 5, 1 + 23, or at 7, 1 + 15; and step 3 at 4, 1 + 24 or 1 + 16, or at 5, 1 + 23. Cut after 16 turns, its
# place names step 2, and it goes on by steps 3, 4 and 7: 1 + 1 + 1 + 15. Turns 17 and 18 are the skips, and from turn 21
# on place names step 7, a drop: 3 + 9.
said=$("$turns" 2>"$room/error") || fail "turns ended with $?: $(cat "$room/error")"
wanted='the ticket of the papers, turns to the end:
  step 0  take 3                              19
  step 1  word 24 := 5                        13
  step 2  drop 3                              9
  step 3  end                                 3
  power goes after 4 turns: 0 left, and it takes 0
  power goes after 5 turns: 14 left, and it takes 14
  power goes after 15 turns: 6 left, and it takes 6
a move of 7 boxes, if there are so many, turns to the end:
  step 0  take 3                              33 to 41
  step 1  take 5                              27 to 35
  step 2  word 514 := 1 if there are too few  21 to 29
  step 3  enough: skip to step 5              17 to 25
  step 4  too few: skip to step 7             16 to 24
  step 5  word 24 := word 24 - word 512       23
  step 6  word 40 := word 40 + word 512       19
  step 7  drop 5                              15
  step 8  drop 3                              9
  step 9  end                                 3
  with enough boxes: 40
  with too few: 33
  power goes after 16 turns: 18 to 26 left, and it takes 18
  power goes after 24 turns: 12 left, and it takes 12'
[ "$said" = "$wanted" ] && [ ! -s "$room/error" ] || fail "turns says: $said$(cat "$room/error")"

# checks STATUS PRINTED SAID WORD...: check must print this, say this on standard error and end with this status
checks() {
    wanted="$1 $2|$3"
    shift 3
    "$check" "$@" >"$room/out" 2>"$room/error"
    said="$? $(cat "$room/out")|$(cat "$room/error")"
    [ "$said" = "$wanted" ] || fail "check $* ends with $said"
}

# Document 01's ticket, and it with word 32 (0020) for word 24 (0018); then a row for each cause.
drop=0002000300000000
end=0008000000000000
checks 0 passes '' "$take" 0003001800000005 "$drop" "$end"
checks 1 'cause 8 at step 1: word 32 is in bay 4, which is not held at step 1' '' \
    "$take" 0003002000000005 "$drop" "$end"
checks 1 'cause 4: a ticket has 3 to 64 steps, and this one has 2' '' "$take" "$end"
checks 1 'cause 4: a ticket has 3 to 64 steps, and this one has 65' '' $(yes "$take" | head -n 65)
checks 1 'cause 5 at step 1: step 1 has kind 9, and the kinds are 1 to 8' '' "$take" 0009000000000000 "$end"
checks 1 'cause 5 at step 63: step 63 is the last, and does not end the ticket' '' $(yes "$take" | head -n 64)
checks 1 'cause 6 at step 2: step 2 ends the ticket with bays 3 and 63 held' '' "$take" 0001003f00000000 "$end"
checks 1 'cause 7 at step 1: bay 2 is below bay 3, which is held at step 1' '' \
    "$take" 0001000200000000 0002000200000000 "$drop" "$end"
checks 1 'cause 9 at step 1: step 1 has bay 3 held and skips to step 3, which has no bay held' '' \
    "$take" 0007001800030000 "$drop" "$end"
checks 2 '' 'check: usage: check WORD .., each a step of 16 hexadecimal digits'
for word in '' take 000100030000000 00010003000000000 000100030000000A 0x01000300000000 +001000300000000; do
    checks 2 '' "check: '$word' is not 16 hexadecimal digits (0 to 9, a to f)" "$take" "$word" "$end"
done
if [ -w /dev/full ]; then
    "$check" "$take" "$drop" "$end" >/dev/full 2>"$room/error"
    status=$?
    [ "$status" -eq 2 ] && grep -q '^check: standard output: ' "$room/error" || fail "check ends with $status"
fi
echo "example: ok, and once exactly after each of $stores cuts; held sets, turns and faults as worked out by hand"
