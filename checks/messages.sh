#!/bin/sh
# usage: messages.sh BOARD
# What the program board says on standard error, with what it prints beside it: its status is always 0 (docs/DECISIONS.md).
set -u
board=$1
room=$(mktemp -d) || exit 1
trap 'rm -rf "$room"' EXIT
trap 'exit 1' HUP INT TERM

# says INPUT PRINTED SAID
says() {
    printf "$1" | "$board" >"$room/printed" 2>"$room/said" || exit 1
    printf "$2" | cmp -s - "$room/printed" || { echo "messages: '$1' prints:" >&2; cat "$room/printed" >&2; exit 1; }
    printf "$3" | cmp -s - "$room/said" || { echo "messages: '$1' says:" >&2; cat "$room/said" >&2; exit 1; }
}

# tells SAID: the last call's message has these words
tells() {
    grep -q "$1" "$room/said" || { echo "messages: no '$1' but:" >&2; cat "$room/said" >&2; exit 1; }
}

recovered='024e 0000000000000000\n'
malformed='ffff 000000000000000e\n'
behind='; nothing behind it is played\n'
says '' '' ''
says '01\n03' "$recovered" ''
says '01\n03\n' "$recovered" ''
says '01\n02010001\n03\n' "ffff 0000000000000001\n$recovered" ''
says '01\n040000\n04ffff\n03\n040001' "$recovered" ''
says '01\n03\n0400\n03\n' "$recovered$malformed" "board: line 3: malformed (14)$behind"
says '01\n03\n0z\n03\n' "$recovered$malformed" "board: line 3: malformed (14)$behind"
says '01\n03\n\n' "$recovered$malformed" "board: line 3: malformed (14)$behind"
says '01\n0x' "$malformed" "board: line 2: malformed (14)$behind"
says '01\r\n' "$malformed" "board: line 1: malformed (14)$behind"
says '09\n03\n' 'ffff 000000000000000a\n' "board: line 1: no board has so many desks (10)$behind"

# line 20,003, behind more than one buffer of input
{ echo 01; yes 02000000 | head -n 20001; echo nonsense; } | "$board" >"$room/printed" 2>"$room/said" || exit 1
tells 'board: line 20003: malformed (14)'

"$board" "$room/day" >"$room/printed" 2>"$room/said" </dev/null || exit 1
tells 'board: takes no arguments'
"$board" >"$room/printed" 2>"$room/said" <&- || exit 1
tells 'board: standard input: '
"$board" >"$room/printed" 2>"$room/said" <"$room" || exit 1
tells 'board: standard input: '
if [ -w /dev/full ]; then
    printf '01\n03\n' | "$board" >/dev/full 2>"$room/said" || exit 1
    tells 'board: standard output: '
fi
echo 'messages: ok'
