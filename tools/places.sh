#!/bin/sh
# usage: tools/places.sh [FOLDER]    (the top of a checkout, else this one)
# Counts the places of each point of docs/DESIGN-PASS.md in crates/*/src, one line a count: the point, what is counted, the number.
# With -v before the folder the places are listed too.
say=0
[ "${1:-}" = -v ] && { say=1; shift; }
here=$(cd "$(dirname "$0")" && pwd) || exit 1
cd "${1:-.}" || exit 1
src=$(find crates/*/src -name '*.rt' | sort)

# count POINT WHAT PATTERN [PATTERN TO LEAVE OUT]
count() {
    found=$(grep -nE "$3" $src | grep -vE '^[^:]*:[0-9]*: *//' | grep -vE "${4:-^$}")
    printf '%s  %-78s %s\n' "$1" "$2" "$(printf '%s' "$found" | grep -c .)"
    [ $say = 0 ] || printf '%s\n' "$found" | sed 's/^/       /' | cut -c1-150
}

# a type of so many cases, of which one has no value or says a refusal: by the enums, one line each
enums() {
    awk '/^ *(pub )?enum / { name = $0; sub(/.*enum /, "", name); sub(/[ <{].*/, "", name); n = 0; cases = ""; depth = 1; next }
         depth == 1 && /^    [A-Z][A-Za-z]*/ { n++; c = $1; sub(/[,({].*/, "", c); cases = cases " " c }
         depth == 1 && /^}/ { print FILENAME ": " name " (" n "):" cases; depth = 0 }' $src
}
two=$(enums | grep -E '\((2)\):')
refusing=$(enums | grep -vE '\(2\):' | grep -E ': .* (Refused|Pass|Halted|Malformed|Empty|Nothing)( |$)')
printf '1  %-78s %s\n' 'enums of two cases' "$(printf '%s' "$two" | grep -c .)"
printf '1  %-78s %s\n' 'enums of more cases, one of them a refusal, or none' "$(printf '%s' "$refusing" | grep -c .)"
[ $say = 0 ] || printf '%s\n%s\n' "$two" "$refusing" | sed 's/^/       /'
count 1 'structs with a flag (fields of type bool)' '^ *(pub )?[a-z_]+: bool,$'
count 1 'functions that give the number of a kind or of a refusal' \
    'fn ([a-z]+_)?(cause|value|step|code|detail|fewest|most|turns|asked|passing|no)\([a-z]+: [A-Z][A-Za-z:]*\) -> u|fn asked\('
count 1 'functions that say whether an answer is no refusal' 'fn (passes|done|taken|goes_on|going)\([a-z]+: [A-Z]'
printf '2  %-78s %s\n' 'functions alike but for names and numbers (tools/twins.py)' "$(python3 "$here/twins.py" . | tail -n 1)"
count 3 'loops with while or loop' '^ *([^/]*[:=] )?(while|loop)\b'
count 3 'of these, by an index that is stepped by hand' '^ *(while) [^&]*( < | != |<= )' 'len\(\) - |rest != 0|playing::more'
count 4 'sums and differences by wrapping functions' 'std::num::'
count 4 'impls of comparison, order, copy or print' 'fn (eq|cmp|partial_cmp|clone|fmt)\b'
count 4 'conversions: numbers to kinds' 'fn by_kind|fn kind_of'
count 5 'clauses with `Inside own image`' 'Inside own image\.(now|old) '
count 5 'clauses with `own ≤ 64`' 'own ≤ 64'
count 5 'parameters `mark, own` together' 'mark: u64, own: usize|^    mark: u64,$'
count 5 'parameters `s, t` together: a step and a turn' 's: u8, t: u8|^    s: u8,$'
count 5 'parameters `locks, waited, moved` together' 'locks: &mut \[u64; 64\]'
count 6 'parallel arrays' 'few: \[|let mut (few|step) = \[|pub step: \['
count 6 'buffers with a length beside' '(out|buf|sets|held): &(mut )?\[[a-z0-9]*\], ?([a-z]+: usize)|^    used: usize,|pub (to|used): usize'
count 7 'flags that choose what a function does' 'fn .*\b(whole|done): bool'
count 7 'tables of functions, function pointers' '\bfn\('
