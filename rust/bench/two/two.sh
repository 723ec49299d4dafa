#!/bin/sh
# Two archives in one process, by turns, at 32 places in their lines of the cache: what a change of the library costs.
#
#   rust/bench/two/two.sh OLD.a NEW.a [ROUNDS]
#
# Prints for each work the median over the places of new time over old (1.00 is equal, below 1 the new one is faster), with
# the first and the third quartile, and the lowest time of each build in nanoseconds. Needs gcc and binutils; pins itself
# to one processor where taskset is there. By itself a process differs from the next by more than such a change: both
# builds are in one here, and where they lie in it is varied.
set -eu
[ $# -ge 2 ] || { sed -n 's/^#   /usage: /p' "$0" >&2; exit 2; }
here=$(cd "$(dirname "$0")" && pwd)
room=$(mktemp -d)
trap 'rm -rf "$room"' EXIT
trap 'exit 1' HUP INT TERM

# an archive's functions under a name of its own
renamed() { # BUILD ARCHIVE
    ld -r -o "$room/$1.whole.o" --whole-archive "$2"
    nm -g --defined-only "$room/$1.whole.o" | awk -v build="$1" '{ print $3, build "_" $3 }' >"$room/$1.names"
    objcopy --redefine-syms="$room/$1.names" "$room/$1.whole.o" "$room/$1.o"
}
renamed old "$1"
renamed new "$2"
gcc -O2 -Wall -Wextra -Werror -c "$here/two.c" -o "$room/two.o"

# so many bytes before what follows
for bytes in 0 16 32 48; do
    printf '.section .note.GNU-stack,"",@progbits\n.text\n.p2align 6\n.fill %d, 1, 0x90\n' $bytes >"$room/by.s"
    as "$room/by.s" -o "$room/by$bytes.o"
done

pinned=
if command -v taskset >/dev/null; then pinned='taskset -c 1'; fi
for old in 0 16 32 48; do
    for new in 0 16 32 48; do
        cd "$room"
        gcc -no-pie two.o by$old.o old.o by$new.o new.o -o one
        gcc -no-pie two.o by$new.o new.o by$old.o old.o -o other
        $pinned ./one "${3:-41}"
        $pinned ./other "${3:-41}"
    done
done | awk -F'|' '
    function sorted(name, n,   i, j, x) {
        for (i = 2; i <= n; i++) {
            x = ratio[name, i]
            for (j = i - 1; j >= 1 && ratio[name, j] > x; j--) ratio[name, j + 1] = ratio[name, j]
            ratio[name, j + 1] = x
        }
    }
    !($1 in count) { names[++known] = $1; old[$1] = $3; new[$1] = $4 }
    { ratio[$1, ++count[$1]] = $2; if ($3 < old[$1]) old[$1] = $3; if ($4 < new[$1]) new[$1] = $4 }
    END {
        print "| work | new time / old time | quartiles | old, lowest ns | new, lowest ns |"
        print "|---|---:|---:|---:|---:|"
        for (i = 1; i <= known; i++) {
            name = names[i]; n = count[name]; sorted(name, n)
            middle = (ratio[name, int((n + 1) / 2)] + ratio[name, int(n / 2) + 1]) / 2
            printf "| %s | **%.3f** | %.3f to %.3f | %s | %s |\n", name, middle,
                ratio[name, int(n / 4) + 1], ratio[name, int(3 * n / 4) + 1], old[name], new[name]
        }
    }'
