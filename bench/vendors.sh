#!/bin/sh
# Prints the table on standard input, and behind it a vendor row for each pair that is bought: for what vendors cost beside the table without.
#
#   bench/vendors.sh         of each bought pair 1000 pieces are booked and 7 are under way, from a vendor of its own
#   bench/vendors.sh days    and a day row for each period but the first: it begins a day later than it would
# An end row stays the last, with the number of rows before it.
#
# bench/reports.sh table prints a large table. It needs awk.
set -eu
case "${*:-vendors}" in
vendors | days) ;;
*)
    echo "bench/vendors.sh: days, or nothing" >&2
    exit 2
    ;;
esac
exec awk -F, -v days="${1-}" '
    # The day behind another, each as 2026-01-05.
    function next_day(text,    year, month, day, last) {
        year = substr(text, 1, 4) + 0
        month = substr(text, 6, 2) + 0
        day = substr(text, 9, 2) + 1
        last = month == 2 ? 28 + (year % 4 == 0 && (year % 100 != 0 || year % 400 == 0)) : month == 4 || month == 6 || month == 9 || month == 11 ? 30 : 31
        if (day > last) { day = 1; month++ }
        if (month > 12) { month = 1; year++ }
        return sprintf("%04d-%02d-%02d", year, month, day)
    }
    $1 == "end" { is_ended = 1; next }
    { print }
    $1 == "run" { first = $2; length_of = $3; periods = $4 }
    $1 == "pair" && $4 == "buy" { vendors[++count] = "vendor,V" count "," $2 "," $3 ",1000,7,," }
    END {
        for (k = 1; k <= count; k++) print vendors[k]
        for (t = 1; days != "" && t < periods; t++) {
            for (k = 0; k <= length_of; k++) first = next_day(first)
            print "day," t "," first ",,,,,"
        }
        rows = NR - is_ended + count + (days != "" ? periods - 1 : 0)
        if (is_ended) print "end," rows ",,,,,,"
    }'
