#!/bin/sh
# Joins the parts of a batch to the answer of the whole.
#     sh join.sh PLAN FOLDER
# A line `FIRST COUNT` of the plan is a part, whose answer is the file FIRST of the folder. Where parts are missing or not
# whole, names their lines of the plan, writes no answer, and the status is not 0.
set -eu
if [ $# -ne 2 ]; then
    echo "usage: sh join.sh PLAN FOLDER" >&2
    exit 1
fi

# awk is exact for whole numbers up to 2^53 only, so a sum is kept in groups of nine digits: sum[0, name], the last nine,
# sum[1, name], ..
awk -v folder="$2" '
    # Some awks take 010 for 8, so the zeros go first.
    function value(digits) { sub(/^0+/, "", digits); return digits + 0 }
    function clear(name,    i) { for (i = 0; i < 5; i++) sum[i, name] = 0 }
    function add(name, number,    i, sign, start) {
        sign = number ~ /^-/ ? -1 : 1
        sub(/^-/, "", number)
        for (i = 0; number != ""; i++) {
            start = length(number) > 9 ? length(number) - 8 : 1
            sum[i, name] += sign * value(substr(number, start))
            number = substr(number, 1, start - 1)
        }
    }
    # Brings each group but the greatest into the range of nine digits.
    function carry(name,    i, more) {
        for (i = 0; i < 4; i++) {
            more = int(sum[i, name] / 1000000000)
            if (more * 1000000000 > sum[i, name]) more -= 1
            sum[i, name] -= more * 1000000000
            sum[i + 1, name] += more
        }
    }
    function text(name,    i, word) {
        carry(name)
        if (sum[4, name] < 0) {
            for (i = 0; i < 5; i++) sum[i, "opposite"] = 0 - sum[i, name]
            return "-" text("opposite")
        }
        for (i = 4; i >= 0; i--) word = word sprintf("%09d", sum[i, name])
        sub(/^0+/, "", word)
        return word == "" ? "0" : word
    }
    # Says whether a file is the whole answer of a part: its replications from 0 on, then their sums, and nothing else.
    function is_whole(file, first, count,    line, word, n, ended) {
        clear("part logs")
        clear("part total")
        n = ended = 0
        while ((getline line <file) > 0) {
            if (n < count && split(line, word, " ") == 7 && word[1] == "rep" && word[2] == n) {
                add("part logs", word[6])
                add("part total", word[7])
                sub(/^rep [0-9]+/, "", line)
                rest[first + n++] = line
            } else if (n == count && !ended && line == "batch " count " " text("part logs") " " text("part total")) {
                ended = 1
            } else {
                ended = 0
                break
            }
        }
        close(file)
        return ended
    }
    BEGIN { clear("logs"); clear("total") }
    $1 != 0 + all || NF != 2 || $2 !~ /^[0-9]+$/ {
        print "join.sh: line " NR " of the plan: the next part begins at " 0 + all >"/dev/stderr"
        failed = 1
        exit 1
    }
    {
        if (!is_whole(folder "/" $1, $1, $2)) {
            print "join.sh: line " NR " of the plan: " folder "/" $1 " is missing or not whole" >"/dev/stderr"
            failed = 1
        } else {
            add("logs", text("part logs"))
            add("total", text("part total"))
        }
        all += $2
    }
    END {
        if (failed) exit 1
        for (i = 0; i < all; i++) print "rep " i rest[i]
        print "batch " all " " text("logs") " " text("total")
    }' "$1"
