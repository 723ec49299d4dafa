#!/bin/sh
# usage: builds.sh MAKEFILE
# When `make stow` asks rt: in a folder of its own, with an rt that only writes the archive, and true for cargo.
set -u
unset MAKEFLAGS MFLAGS MAKELEVEL
makefile=$(realpath "$1") || exit 1
room=$(mktemp -d) || exit 1
trap 'rm -rf "$room"' EXIT
trap 'exit 1' HUP INT TERM
cd "$room" && mkdir -p bin other crates/one/src crates/zilpanud && cp "$makefile" Makefile || exit 1
cat >bin/rt <<'END'
#!/bin/sh
echo "$(basename "$PWD") $*" >>../../asked
mkdir -p out && touch out/libzilpanud.a
END
chmod +x bin/rt
PATH=$room/bin:$PATH
archive=target/staticlib/libzilpanud.a
touch asked crates.txt crates/one/src/a.rt crates/one/src/b.rt other/libzilpanud.a
touch -t 202001010000 crates.txt crates/one/src/a.rt crates/one/src/b.rt crates/one/src

# asks TIMES WHEN ARGUMENT...: so often has rt been asked for the archive, all in all, when make was called with these
asks() {
    times=$1
    when=$2
    shift 2
    make --silent CARGO=true "$@" >said 2>&1 || { cat said >&2; echo "builds: make $* failed, $when" >&2; exit 1; }
    [ "$(grep -c '^zilpanud lib$' asked)" -eq "$times" ] ||
        { echo "builds: make $*, $when: rt was asked $(grep -c . asked) times, and not $times" >&2; exit 1; }
}

asks 1 'without an archive' stow
asks 1 'with nothing changed' stow
asks 1 'with nothing changed' all BOARD=bin/rt
asks 1 'with another archive' stow LIB=other
asks 2 'with nothing changed' library
touch -t 202101010000 $archive
asks 2 'with an older source' stow
touch -t 202201010000 crates/one/src/a.rt
asks 3 'with a younger source' stow
touch -t 202101010000 $archive
touch -t 202001010000 crates/one/src/a.rt
rm crates/one/src/b.rt
asks 4 'with a source less' stow
touch -t 202101010000 $archive
touch -t 202001010000 crates/one/src
touch -t 202201010000 crates.txt
asks 5 'with a younger list of crates' stow
asks 6 'with nothing changed' rust_examples
echo 'builds: rt is asked for what is not made, or older than its sources'
