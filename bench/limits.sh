#!/bin/sh
# Runs the program over tables at the limits of docs/tables.md and one past them, and prints for each the
# rows of the table, the command, seconds of processor time, peak memory and whether the answer is right.
#
#   bench/limits.sh [--large] [PROGRAM]
#
# With --large the tables are those at the limits of that word: it takes some five minutes, and 8 GB of memory.
# PROGRAM is bin/mrp's where it isn't given. It needs awk and GNU time. Exit status: 1 where an answer is wrong.
# (the conditions are awk's)
# shellcheck disable=SC2016
set -eu
top=$(CDPATH='' cd -- "$(dirname -- "$0")/.." && pwd)
large=
[ "${1:-}" != --large ] || { large=--large && shift; }
program=${1:-}
if [ -z "$program" ]; then
    "$top/bin/mrp" --help >/dev/null
    program=$top/crates/mrp/out/mrp
fi
folder=$(mktemp -d)
trap 'rm -rf "$folder"' EXIT
table=$folder/table.csv

# The rows of a table: `run` and plants, pairs, and as many rows of each other kind as asked, of one pair that is
# taken from another. Each has quantity 1.
rows() {
    awk -v plants="$1" -v pairs="$2" -v demands="$3" -v receipts="$4" -v ships="$5" -v firms="${6:-0}" 'BEGIN {
        print "run,2026-01-05,7,104,,,,"
        for (i = 0; i < plants; i++) print "plant,P" i ",,,,,,"
        for (i = 0; i < pairs; i++) print "pair,P" i % 2 ",I" int(i / 2) "," (i ? "buy" : "from:P1") ",lot,0,0,0"
        for (i = 0; i < demands; i++) print "demand,P0,I0," i % 104 ",1,,,"
        for (i = 0; i < receipts; i++) print "receipt,P0,I0," i % 104 ",1,,,"
        for (i = 0; i < ships; i++) print "ship,P1,P0,I0," i % 104 ",1,,"
        for (i = 0; i < firms; i++) print "firm,P0,I0," i % 104 "," i % 104 ",1,,"
    }'
}

# So many pairs, 20,000 where nothing is said, each made of the next; seven pieces of the first are wanted in the last of
# so many periods.
chain() {
    awk -v pairs="${1:-20000}" -v periods="${2:-104}" 'BEGIN {
        print "run,2026-01-05,7," periods ",,,,\nplant,P,,,,,,"
        for (i = 0; i < pairs; i++) print "pair,P,I" i "," (i < pairs - 1 ? "make" : "buy") ",lot,0,0,0"
        for (i = 0; i < pairs - 1; i++) print "bill,P,I" i ",I" i + 1 ",1,,,"
        print "demand,P,I0," periods - 1 ",7,,,"
    }'
}

# One pair that goes into 19,999 others, of each of which one piece is wanted in the last period.
one_for_all() {
    awk 'BEGIN {
        print "run,2026-01-05,7,104,,,,\nplant,P,,,,,,\npair,P,ONE,buy,lot,0,0,0"
        for (i = 1; i < 20000; i++) print "pair,P,I" i ",make,lot,0,0,0"
        for (i = 1; i < 20000; i++) print "bill,P,I" i ",ONE,1,,,"
        for (i = 1; i < 20000; i++) print "demand,P,I" i ",103,1,,,"
    }'
}

# So many parents, 10,000 where nothing is said, of 20 components each, each of which has 20 parents, and so many bill rows
# more of a last pair.
bills() {
    awk -v more="$1" -v half="${2:-10000}" 'BEGIN {
        print "run,2026-01-05,7,104,,,,\nplant,P,,,,,,"
        for (i = 0; i < 2 * half; i++) print "pair,P,I" i "," (i < half ? "make" : "buy") ",lot,0,0,0"
        for (i = 0; i < half; i++) for (k = 0; k < 20; k++) print "bill,P,I" i ",I" half + (i * 20 + k) % half ",1,,,"
        for (k = 0; k < more; k++) print "bill,P,I0,I" 2 * half - 1 - k ",1,,,"
        for (i = 0; i < half; i++) print "demand,P,I" i ",103,1,,,"
    }'
}

# 64 plants and 312 items: 60 plants take each item from the four others in equal shares, with figures and new starts.
lanes() {
    awk 'BEGIN {
        print "run,2026-01-05,7,104,,,,"
        for (p = 0; p < 64; p++) print "plant,P" p ",,,,,,"
        for (i = 0; i < 312; i++) for (p = 0; p < 64; p++)
            print "pair,P" p ",I" i "," (p < 4 ? "buy" : "from:P0:250:P1:250:P2:250:P3:250") ",lot,0,0,0"
        for (i = 0; i < 312; i++) for (p = 4; p < 64; p++) print "demand,P" p ",I" i ",103,4,,,"
        for (i = 0; i < 312; i++) for (p = 4; p < 64; p++) for (q = 0; q < 4; q++) print "cum,P" q ",P" p ",I" i ",1000,,,"
        for (i = 0; i < 312; i++) for (p = 4; p < 64; p++) for (q = 0; q < 4; q++) print "reset,P" q ",P" p ",I" i ",50,,,"
    }'
}

# The same firm with nearly a million rows of each kind: 53 periods want four pieces and get one, and what is on its way
# comes in the last.
everything() {
    lanes | grep -v '^\(demand\|cum\|reset\)'
    awk 'BEGIN {
        for (t = 0; t < 53; t++) for (i = 0; i < 312; i++) for (p = 4; p < 64; p++) print "demand,P" p ",I" i "," t ",4,,,"
        for (t = 0; t < 53; t++) for (i = 0; i < 312; i++) for (p = 4; p < 64; p++) print "receipt,P" p ",I" i "," t ",1,,,"
        for (k = 0; k < 13; k++) for (i = 0; i < 312; i++) for (p = 4; p < 64; p++) for (q = 0; q < 4; q++)
            print "ship,P" q ",P" p ",I" i ",103,1,,"
    }'
    lanes | grep '^\(cum\|reset\)'
}

# Every quantity at its limit, and a component of which so many pieces go into each.
quantities() {
    lot=1000000000000
    echo "run,2026-01-05,31,104,,,,"
    echo "plant,P,,,,,,"
    echo "pair,P,X,make,fixed:$lot,104,$lot,$lot"
    echo "pair,P,Y,buy,min:$lot:$lot,104,$lot,$lot"
    echo "bill,P,X,Y,$1,,,"
    echo "demand,P,X,103,$lot,,,"
    echo "receipt,P,Y,0,$lot,,,"
}

# The rows on standard input, and an end row behind them.
ended() {
    awk '{ print } END { print "end," NR ",,,,,," }'
}

wrong=0
# Runs a command over the table. Its answer is the line of a fault, or in how many rows of the report a condition of awk holds.
try() {
    name=$1 command=$2 wanted=$3 holds=${4:-0}
    status=0
    # shellcheck disable=SC2086
    command time -q -f '%U %S %M' -o "$folder/time" "$program" $command $large <"$table" >"$folder/out" 2>"$folder/err" || status=$?
    said=$(cat "$folder/err")
    if [ -z "$said" ] && [ "$status" -eq 0 ]; then
        said=$(awk -F, "$holds { good++ } END { print good + 0, \"of\", NR }" "$folder/out")
    fi
    verdict=right
    [ "$said" = "$wanted" ] || verdict="WRONG, $said in place of $wanted" wrong=1
    spent=$(awk '{ printf "%6.2f s %4d MiB", $1 + $2, $3 / 1024 }' "$folder/time")
    printf '%-18s %8s  %-34s %s  %s\n' "$name" "$(wc -l <"$table")" "$command" "$spent" "$verdict"
}

# The tables at the limits of --large, and one past them.
large() {
    chain 1000000 4 >"$table"
    try "million levels" orders "1000000 of 1000000" '$5 == 7 && $9 == "2026-01-26"'
    chain 1000 520 >"$table"
    try "520 periods" plan "1000 of 520000" '$4 == 519 && $6 == 7 && $8 == 7'
    try "520 periods" "peg P I999 519" "1 of 1" '$2 == "bill" && $7 == 7'
    bills 0 500000 >"$table"
    try "million pairs" orders "1000000 of 1000000" '$5 == (substr($3, 2) + 0 < 500000 ? 1 : 20)'
    bills 1 500000 >"$table"
    try "10,000,001 bills" check "mrp: row 11000003: TooMany"
    rows 1001 0 0 0 0 >"$table"
    try "1,001 plants" check "mrp: row 1002: TooMany"
    rows 2 1000001 0 0 0 >"$table"
    try "1,000,001 pairs" check "mrp: row 1000004: TooMany"
    rows 2 2 18000000 0 0 >"$table"
    try "18,000,000 demands" "peg P0 I0 0" "1 of 1" '$2 == "demand" && $5 == 173077'
    rows 2 2 18000001 0 0 >"$table"
    try "18,000,001 demands" check "mrp: row 18000006: TooMany"
    rows 2 2 0 9000000 0 >"$table"
    try "9,000,000 receipts" plan "104 of 208" '$2 == "P0" && $7 > 86500'
    rows 2 2 0 9000001 0 >"$table"
    try "9,000,001 receipts" check "mrp: row 9000006: TooMany"
    rows 2 2 0 0 9000001 >"$table"
    try "9,000,001 ships" check "mrp: row 9000006: TooMany"
    rows 2 2 0 0 0 9000001 >"$table"
    try "9,000,001 firm" check "mrp: row 9000006: TooMany"
    exit "$wrong"
}

printf '%-18s %8s  %-34s %8s %8s\n' table rows command seconds memory
[ -z "$large" ] || large
chain >"$table"
try chain plan "20000 of 2080000" '$4 == 103 && $6 == 7 && $8 == 7 && $9 == 7 && $10 == 0'
try chain check "20000 of 20000" '$4 == NR - 1'
try chain "check --reach" "20000 of 20000" '$4 == 103 && $5 == 103'
one_for_all >"$table"
try one_for_all plan "20000 of 2080000" '$4 == 103 && $6 == ($3 == "ONE" ? 19999 : 1) && $8 == $6'
try one_for_all "peg P ONE 103" "19999 of 19999" '$2 == "bill" && $7 == 1'
bills 0 >"$table"
try bills plan "20000 of 2080000" '$4 == 103 && $6 == (substr($3, 2) + 0 < 10000 ? 1 : 20) && $8 == $6'
bills 0 | "$top/bench/usages.sh" 103 100 >"$table"
try "200,000 usages" plan "20000 of 2080000" '$4 == 103 && $6 == (substr($3, 2) + 0 < 10000 ? 1 : 40) && $8 == $6'
try "200,000 usages" "peg P I10000 103" "20 of 20" '$2 == "bill" && $6 == "103/100" && $7 == 2'
bills 0 | "$top/bench/vendors.sh" days >"$table"
try "10,000 vendors" schedule "10000 of 20000" '$6 == 103 && $7 == "2028-04-08" && $8 == 20 && $9 == 1027'
try "10,000 vendors" "schedule --from V10000" "1 of 2" '$6 == 103 && $7 == "2028-04-08" && $8 == 20 && $9 == 1027'
try "103 days" plan "20000 of 2080000" '$4 == 103 && $5 == "2028-04-08"'
lanes >"$table"
for words in "plan --single" "plan --capacity 1" "plan --workers 2 --capacity 65536"; do
    try lanes "$words" "19968 of 2076672" '$4 == 103 && $6 == (substr($2, 2) + 0 < 4 ? 60 : 4) && $8 == $6'
done
try lanes cums "149760 of 149760" '$6 == 1000 && $7 == ($2 == "despatch" ? 1000 : 1001) && $9 == 0'
everything >"$table"
try "everything, cut" "plan --whole" "mrp: row $(($(wc -l <"$table") + 1)): Cut"
everything | ended >"$table"
parts='$2 == "P0" ? $6 == 0 : $6 == 60 && $8 == 60'
for words in "plan --single" "plan --whole" "plan --workers 2 --capacity 65536"; do
    try everything "$words" "1058304 of 2076672" '$4 < 53 && (substr($2, 2) + 0 < 4 ? ('"$parts"') : $6 == 4 && $7 == 1 && $8 == 3)'
done
try everything "check --reach --whole" "19968 of 19968" '$4 == 103 && $5 == 103'
try everything cums "149760 of 149760" '$2 == "despatch" ? $7 == 1013 : $6 == 1013 && $7 == ($4 == "P0" ? 1013 : 1066)'
rows 2 20000 1000000 1000000 1000000 >"$table"
try "million of each" plan "208 of 2080000" '$3 == "I0" && $8 == 0 && $9 == 0'
try "million of each" cums "2 of 2" '$7 == 1000000'
rows 2 2 0 0 0 1000000 >"$table"
try "million firm" plan "208 of 208" '$9 == ($4 < 40 ? 9616 : 9615) && ($2 == "P0" ? $7 == $9 && $8 == 0 : $8 == $9)'
try "million firm" orders "1000104 of 1000104" '$1 == "firm" || $2 == "P1"'
quantities 1 >"$table"
try quantities plan "1 of 209" '$1 == "late" && $3 == "X" && $5 == 1000000000000 && $6 == 1'
quantities 1000000 >"$table"
try "past the bound" plan "mrp: NeedTooLarge P/Y"
rows 65 0 0 0 0 >"$table"
try "65 plants" check "mrp: row 66: TooMany"
rows 2 20001 0 0 0 >"$table"
try "20,001 pairs" check "mrp: row 20004: TooMany"
bills 1 >"$table"
try "200,001 bills" check "mrp: row 220003: TooMany"
bills 0 | "$top/bench/usages.sh" same >"$table"
echo "usage,P,I0,I10000,1,1,1," >>"$table"
try "200,001 usages" check "mrp: row 430003: TooMany"
rows 2 2 1000001 0 0 >"$table"
try "1,000,001 demands" check "mrp: row 1000006: TooMany"
rows 2 2 0 1000001 0 >"$table"
try "1,000,001 receipts" check "mrp: row 1000006: TooMany"
rows 2 2 0 0 1000001 >"$table"
try "1,000,001 ships" check "mrp: row 1000006: TooMany"
rows 2 2 0 0 0 1000001 >"$table"
try "1,000,001 firm" check "mrp: row 1000006: TooMany"
exit "$wrong"
