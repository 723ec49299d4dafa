#!/bin/sh
# usage: claims.sh, at the top of the repository
# docs/CLAIMS.md says where each statement stands. Here each of these is looked up: that `C/file` is there; that in "`name` in `C/file`", or several names
# before it, or behind a file of proofs and a colon, each is declared in that file, or in one of that folder; that in "by `name`" it is declared somewhere;
# and that the lines counted under 'What a reader must believe' are the files' own, with their sums. A name with blanks in it is looked up by its first word,
# a path of Rust by its last.
set -u
page=docs/CLAIMS.md
bad=0
room=$(mktemp -d) || exit 1
trap 'rm -rf "$room"' EXIT
fail() { echo "claims: $1" >&2; bad=1; }

# ---- files

tr '\n' ' ' <"$page" >"$room/page"
grep -o '`C/[^`]*`' "$room/page" | tr -d '`' | grep -v '^C/X/' | sort -u >"$room/files"
while read -r file; do
    [ -e "crates/${file#C/}" ] || fail "there is no crates/${file#C/}"
done <"$room/files"

# ---- names

# a word that begins a line behind such keywords is declared there
declared() {
    find "$1" \( -name '*.antt' -o -name '*.rt' \) -exec awk -v name="$2" '
        { i = 1; while ($i ~ /^(pub|pub\(crate\)|abbrev|unfoldable|data|record|extern|"C"|fn|struct|enum|const|type|mod)$/) i++
          word = $i; sub(/[(:{;<].*/, "", word); if (word == name) { found = 1; exit } }
        END { exit !found }' {} \; -print | grep -q .
}

looked=0
grep -oE '(`[^`]+`(, |,? and | of ))*`[^`]+` (in|of) `C/[^`]+`' "$room/page" >"$room/said"
while read -r line; do
    file=$(printf '%s\n' "$line" | grep -o '`C/[^`]*`$' | tr -d '`')
    names=$(printf '%s\n' "${line%\`C/*}" | grep -o '`[^`]*`' | tr -d '`' | awk '{ sub(/.*::/, "", $1); print $1 }' | grep -v '[/.]')
    for name in $names; do
        looked=$((looked + 1))
        declared "crates/${file#C/}" "$name" || fail "\`$name\` is not declared in crates/${file#C/}"
    done
done <"$room/said"

grep -oE '`C/[^`]*/proofs/[^`]*`: `[^`]+`(, `[^`]+`)*' "$room/page" >"$room/listed"
while read -r line; do
    file=$(printf '%s\n' "$line" | grep -o '^`C/[^`]*`' | tr -d '`')
    for name in $(printf '%s\n' "${line#*: }" | tr -d '`,'); do
        looked=$((looked + 1))
        declared "crates/${file#C/}" "$name" || fail "\`$name\` is not declared in crates/${file#C/}"
    done
done <"$room/listed"

for name in $(grep -oE '\<by `[a-z]+([-_][a-z]+)+`' "$room/page" | tr -d '`' | sed 's/by //' | sort -u); do
    looked=$((looked + 1))
    grep -qE "^ *(pub )?$name( |$)" crates/*/proofs/*.antt && continue
    # a theorem stands in proofs/; what has no hyphen may be a definition or a function too
    case $name in
    *-*) ;;
    *) grep -qE "^ *(pub(\(crate\))? )?(abbrev |fn )(pub )?$name[ (]" crates/*/specs/*.antt crates/*/src/*.rt && continue ;;
    esac
    fail "\`$name\` is declared in no crate"
done

# ---- lines

lines_of() { awk '{ sub(/^ +/, "") } $0 == "" || /^--/ || /^use / { next } { n++ } END { print n + 0 }' "$1"; }

in_all=0
sed -n '/^## What a reader must believe/,/^## /p' "$page" | grep '^|.*antt' >"$room/rows"
while read -r row; do
    sum=0
    for pair in $(printf '%s\n' "$row" | grep -o '`[^`]*\.antt` [0-9]*' | tr -d '`' | tr ' ' '='); do
        file=crates/$(echo "${pair%=*}" | sed 's,/,/specs/,')
        if [ ! -f "$file" ]; then fail "there is no $file"; continue; fi
        n=$(lines_of "$file")
        [ "$n" = "${pair#*=}" ] || fail "$file has $n lines, and not ${pair#*=}"
        sum=$((sum + n))
    done
    said=$(printf '%s\n' "$row" | sed 's/.*| *\([0-9]*\) *|$/\1/')
    [ "$sum" = "$said" ] || fail "a row of lines adds up to $sum, and not $said"
    in_all=$((in_all + sum))
done <"$room/rows"
grep -q "^| in all | | $in_all |" "$page" || fail "the lines are $in_all in all"

[ "$bad" -eq 0 ] || exit 1
echo "claims: $looked names in $(grep -c . "$room/files") files or folders are where docs/CLAIMS.md has them, and its $in_all lines are counted right"
