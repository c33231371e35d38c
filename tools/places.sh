#!/usr/bin/env bash
# Counts the places in src/ that docs/DESIGN-PASS.md speaks of, by point and pattern: each pattern's matches, crate by
# crate, and their sum.
#
# Usage: tools/places.sh [FOLDER]     a checkout, this one by default; with LIST=1 each place is printed too
set -euo pipefail
cd "${1:-$(dirname "$0")/..}"

# POINT NAME PATTERN
count() {
    local found
    found=$(git grep -nE "$3" -- 'crates/*/src/*.rt' || true)
    printf '%s  %s: %s\n' "$1" "$2" "$(printf '%s' "$found" | grep -c . || true)"
    if [ -z "$found" ]; then return; fi
    printf '%s\n' "$found" | cut -d/ -f2 | sort | uniq -c | sort -rn | awk '{ printf "     %s %s\n", $2, $1 }' | paste -sd, -
    if [ -n "${LIST:-}" ]; then printf '%s\n' "$found" | sed 's/^/     /'; fi
}

count 1 "enums of the shape of Option or Result" 'enum (\w*Found|\w*Read|Reading|Output|Left|Scan|NextEdit|Run|Turned)\b'
count 1 "fields that say whether a value stands beside them" '^\s+pub (accepted: bool|refusal: u8)'
count 1 "functions that answer a refusal's number" 'fn \w*(refus|early|own|divide|merge|room_at|missing)\w*\(.*-> u8'
count 1 "refusals written as numbers" 'return ([1-9]|1[0-5]);|Refused\([0-9]+[,)]|plain\([0-9]+\)|refused_\w+\([0-9]+,'
count 1 "tests of a refusal's number" '(refus\w*|early|later|fault\.number|found\.refusal|r|level) [!=]= 0'
count 1 "rules and kinds by number" '(rule|kind|level|letter): u(8|16)'
count 3 "loops by while" '^\s+while '
count 4 "types that derive copying alone" '^#\[derive\(Clone, Copy\)\]'
count 4 "numbers of two values compared" '\.0 [!=<]=? \w+(\.\w+)*\.0'
count 4 "conversions by as" '\bas (u8|u16|u32|usize|i32)\b'
count 5 "networks by value" '\b(n|network|known): Network\b'
count 5 "lengths of pages and sheets as requires" 'requires .*length \w+\.(old|now) ≡ (8192|512|49152|96)'
count 5 "a train and its visit as two parameters" '\b[tu]: Train, [vw]: Visit'
count 5 "lengths tested as numbers" 'len\(\) [!=]= (8192|49152|512)'
count 6 "counts beside an array" 'pub (stationcount|linecount|closurecount|count|from|to): '
count 7 "switches by bool" '\b(first|connection|divided|rise|tested|good|everywhere|kept): bool'
count 8 "endings in false behind nested ifs" '^\s+false$'
