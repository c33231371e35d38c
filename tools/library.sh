#!/usr/bin/env bash
# Builds the library for C, Rust and Python, and tries each on document 01's listing. What a command needs it builds
# first; the archive only where the code is newer.
#
#   tools/library.sh try        C, Rust and Python, one after the other, each on the listing
#   tools/library.sh c          a C program over include/strakewhip.h
#   tools/library.sh rust       bindings/rust with its examples
#   tools/library.sh python     bindings/python on the shared object
#   tools/library.sh archive    crates/strakewhip/out/libstrakewhip.a, proved, whether or not the code is newer
#   tools/library.sh shared     target/library/libstrakewhip.so, from the archive
#   tools/library.sh agree      code, exports, header and wrappers name the same calls with the same parameters
#   tools/library.sh test       tests/library: every call against the second implementation
#   tools/library.sh all        the archive, and then all of these
set -euo pipefail
cd "$(dirname "${BASH_SOURCE[0]}")/.."
. tools/scratch.sh
top=$PWD
archive=$top/crates/strakewhip/out/libstrakewhip.a
export STRAKEWHIP_LIB=$top/crates/strakewhip/out
export CARGO_TARGET_DIR=$top/target/library/rust
mkdir -p target/library

# Nothing below is called behind `if`, `&&` or `||`: there a command that fails would not end this script.

archive() {
    if ! (cd crates/strakewhip && rt lib) >target/library/archive.log 2>&1; then
        tail -n 20 target/library/archive.log >&2
        exit 1
    fi
}
current() {
    local newer=yes
    if [ -e "$archive" ]; then newer=$(find crates crates.txt -path '*/out' -prune -o -newer "$archive" -type f -print -quit); fi
    if [ -n "$newer" ]; then archive; fi
}
shared() {
    current
    gcc -shared -o target/library/libstrakewhip.so -Wl,--whole-archive "$archive" -Wl,--no-whole-archive
}

same() { # NAME EXPECTED: standard input is what is to be the same
    diff "$2" - >&2 || { echo "library: what $1 prints is not $2" >&2; exit 1; }
    echo "library: what $1 prints is $2"
}
c() {
    current
    gcc -std=c99 -Wall -Wextra -Werror -pedantic -O2 -Iinclude -o target/library/listing tests/library/listing.c \
        "$archive"
    target/library/listing | same C crates/shift/stdout
}
rust() {
    current
    cargo build --manifest-path bindings/rust/Cargo.toml --release --offline --quiet --examples
    "$CARGO_TARGET_DIR/release/examples/listing" | same Rust crates/shift/stdout
    "$CARGO_TARGET_DIR/release/examples/rooms" | same "the example of two rooms" tests/library/rooms.txt
}
python() {
    shared
    python3 bindings/python/listing.py | same Python crates/shift/stdout
    python3 bindings/python/rooms.py | same "the same in Python" tests/library/rooms.txt
    python3 tests/library/wrapped.py
}
agree() {
    shared
    python3 tests/library/agree.py
}
tests() {
    current
    cargo build --manifest-path tests/library/Cargo.toml --release --offline --quiet
    "$CARGO_TARGET_DIR/release/library_tests" "$@"
}

case ${1:-} in
archive | shared | c | rust | python | agree) "$1" ;;
try)
    c
    rust
    python
    ;;
test)
    shift
    tests "$@"
    ;;
all)
    archive
    agree
    c
    rust
    python
    tests
    ;;
*)
    sed -n '2,/^set/s/^# \{0,1\}//p' "$0"
    exit 2
    ;;
esac
