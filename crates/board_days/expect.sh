#!/bin/sh
# Writes what the days of data/ must print. The given vectors brought their outputs (request-NN-day-..: those of document 02's
# request NN, cut-14 to cut-17 as request 1 changes them, and random-500004, -500350, -500387, -500681, -501714, -503242, -503344,
# -503555, -503644, -504490, -504504, -505231 and -506496 as request 5 does, by sums and differences that went round). Request 5 also
# changes seven of request 1, for which no new outputs are given. These and those of our own days (data/OUR-DAYS.md) come from the
# program `board` of rust/twin, which was written from documents 01 and 02 alone and shares no code with ours. The sums of request 7
# were given too, or worked out by hand: the twin's must be these, or it stops. Then it writes the list of all days and the program's
# expected output.
set -e
cd "$(dirname "$0")"
./days.py
target=${CARGO_TARGET_DIR:-../../rust/twin/target}
cargo build --release --quiet --manifest-path ../../rust/twin/Cargo.toml --target-dir "$target" --bin board --bin sums
for f in data/our-*.frames data/request-01-day-01004.frames data/request-01-day-01019.frames data/request-01-day-01022.frames \
    data/request-01-day-01505.frames data/request-01-day-01507.frames data/request-01-day-01508.frames data/request-01-day-01510.frames; do
    "$target/release/board" <"$f" >"${f%.frames}.out"
done
for f in data/*.sums; do
    "$target/release/sums" <"${f%.sums}.frames" | cmp - "$f"
done
(cd data && ls -- *.frames) >data/days
while read -r day; do
    echo "== $day"
    cat "data/${day%.frames}.out"
done <data/days >stdout
