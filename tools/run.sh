#!/usr/bin/env bash
# Runs a program on a file of plain decimal numbers; proves and builds it first where it is not built yet.
# Each crate that it rests on is proved on the way; its line says so.
#
#   tools/run.sh shift tools/sample.txt
#   tools/run.sh inspect tools/timetable.txt
set -euo pipefail
if [ $# -ne 2 ]; then
    echo "usage: tools/run.sh shift|inspect FILE" >&2
    exit 2
fi
tools=$(cd "$(dirname "${BASH_SOURCE[0]}")" && pwd)
built="$tools/../crates/$1/out/$1"
. "$tools/scratch.sh"

# Proves the program and the crates that it rests on, and says which of how many is done.
prove() {
    local all at=0 name=
    all=$(python3 "$tools/closure.py" "$1" crates.txt)
    echo "proving $1 and the crates that it rests on, $all in all; this takes some minutes" >&2
    (cd "crates/$1" && rt run 2>&1 >/dev/null </dev/null) | while IFS= read -r line; do
        case $line in
        'crate '*': modules '*)
            name=${line#crate }
            name=${name%%:*}
            ;;
        'logic=proved '*)
            at=$((at + 1))
            echo "crate $at of $all: $name proved" >&2
            ;;
        'logic=not-proved'*) echo "$name NOT PROVED" >&2 ;;
        *': error'*) printf '%s\n' "$line" >&2 ;;
        esac
    done
}

if [ ! -x "$built" ]; then
    (cd "$tools/.." && prove "$1")
fi
python3 "$tools/encode.py" < "$2" | "$built"
