#!/bin/sh
# Makes one part of a batch: COUNT replications of a text, from number FIRST on.
#     sh part.sh TEXT FIRST COUNT LIMIT
# Adds FIRST to the number of the text's seed line, and runs `simq batch COUNT LIMIT` on this text. The part numbers its
# replications from 0; join.sh numbers them anew. The status is that of simq. It is not 0 either, and nothing is run, where
# the text has no seed line or the sum is not below 2^63. The variable SIMQ may name the program.
set -eu
SIMQ=${SIMQ:-simq}
if [ $# -ne 4 ]; then
    echo "usage: sh part.sh TEXT FIRST COUNT LIMIT" >&2
    exit 1
fi

# awk is exact for whole numbers up to 2^53 only, so the last nine digits are added apart from those before them.
raised=$(awk -v first="$2" '
    function is_number(word) { return word ~ /^[0-9]+$/ && length(word) <= 19 }
    # Some awks take 010 for 8, so the zeros go first.
    function value(digits) { sub(/^0+/, "", digits); return digits + 0 }
    function low(number) { return value(length(number) > 9 ? substr(number, length(number) - 8) : number) }
    function high(number) { return length(number) > 9 ? value(substr(number, 1, length(number) - 9)) : 0 }
    BEGIN { if (!is_number(first)) { why = "FIRST is not a number"; exit 1 } }
    $1 == "seed" && !found {
        found = 1
        sub(/#.*/, "")
        sub(/\r$/, "")
        if (NF != 2 || !is_number($2)) { why = "no number in the seed line"; exit 1 }
        units = low($2) + low(first)
        billions = high($2) + high(first)
        if (units >= 1000000000) { units -= 1000000000; billions += 1 }
        if (billions > 9223372036 || (billions == 9223372036 && units > 854775807)) {
            why = "the seed would not be below 2^63"
            exit 1
        }
        $0 = sprintf("seed %.0f%09.0f", billions, units)
    }
    { print }
    END {
        if (!why && !found) why = "the text has no seed line"
        if (why) { print "part.sh: " why >"/dev/stderr"; exit 1 }
    }' "$1")
printf '%s\n' "$raised" | "$SIMQ" batch "$3" "$4"
