#!/usr/bin/env bash
# Builds the second implementation, tries the drawing of running maps with it, and compares the programs with it.
#
#   tests/run.sh SHIFT INSPECT [options of compare.py]
#   SHIFT=.. INSPECT=.. tests/run.sh
#
# Without programs the second implementation is compared with itself, which tries the comparison alone.
set -euo pipefail
here=$(cd "$(dirname "${BASH_SOURCE[0]}")" && pwd)
built="$here/../reference/target/release"

(cd "$here/../reference" && cargo build --release --offline --quiet)
python3 "$here/maps.py" "$built/inspect"

if [ $# -ge 2 ] && [ "${1#-}" = "$1" ]; then
    SHIFT=$1 INSPECT=$2
    shift 2
fi
exec python3 "$here/compare.py" \
    --shift "${SHIFT:-$built/shift}" --inspect "${INSPECT:-$built/inspect}" \
    --reference-shift "$built/shift" --reference-inspect "$built/inspect" "$@"
