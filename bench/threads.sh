#!/bin/sh
# Measures `mrp plan`, a thread for each plant, beside `mrp plan --single`, run after run in turn, and prints for
# each way the least and the middle of the seconds (wall, then processor) and the peak memory in KiB.
#
#   bench/threads.sh [RUNS] [TABLE..]     RUNS is 1 to 99, 5 where it isn't given
#   bench/threads.sh table                prints the table of a firm whose planning is much of the work
#
# With no TABLE it measures that firm and the one of bench/firm.sh, whose 64 plants all take from each other.
# It needs awk and GNU time. MRP may name the program; else it is bin/mrp's.
set -eu
top=$(CDPATH='' cd -- "$(dirname -- "$0")/.." && pwd)

# A firm of 64 plants and 104 periods. A plant has four levels of 32 items; each that is made is made of all items of
# the level below, every 50th is taken from the plant after it, and only the first level has demand rows. So a pair
# has 24 bill rows, and nearly as many rows are planned as can be for each that is written.
make_table() {
    awk 'BEGIN {
        plants = 64; levels = 4; wide = 32
        print "run,2026-01-05,7,104,,,,"
        for (p = 0; p < plants; p++) print "plant,P" p ",,,,,,"
        split("lot fixed:50 periods:4 min:20:5", rules, " ")
        for (p = 0; p < plants; p++) for (i = 0; i < levels * wide; i++) {
            supply = i < (levels - 1) * wide ? "make" : "buy"
            if (i % 50 == 49 && p + 1 < plants) supply = "from:P" (p + 1)
            print "pair,P" p ",I" i "," supply "," rules[i % 4 + 1] "," i % 3 "," (i * 7) % 90 "," i % 11
        }
        for (p = 0; p < plants; p++) for (i = 0; i < (levels - 1) * wide; i++) {
            if (i % 50 == 49 && p + 1 < plants) continue
            for (k = 0; k < wide; k++)
                print "bill,P" p ",I" i ",I" (int(i / wide) + 1) * wide + k ",1,,,"
        }
        for (p = 0; p < plants; p++) for (i = 0; i < wide; i++) for (k = 0; k < 5; k++)
            print "demand,P" p ",I" i "," (k * 19 + i) % 104 "," 1 + (i + k) % 9 ",,,"
    }'
}

if [ "${1:-}" = table ]; then
    make_table
    exit
fi
runs=${1:-5}
case $runs in
[1-9] | [1-9][0-9]) ;;
*)
    echo "bench/threads.sh: RUNS is 1 to 99" >&2
    exit 2
    ;;
esac
[ $# -eq 0 ] || shift
folder=$(mktemp -d)
trap 'rm -rf "$folder"' EXIT
if [ $# -eq 0 ]; then
    make_table >"$folder/levels.csv"
    "$top/bench/firm.sh" table 64 20000 >"$folder/all_lanes.csv"
    set -- "$folder/levels.csv" "$folder/all_lanes.csv"
fi

# Prints the least and the middle of a column of the file.
least_and_middle() {
    sort -n -k "$2,$2" "$1" | awk -v column="$2" '{ v[NR] = $column } END { printf "%s %s", v[1], v[int((NR + 1) / 2)] }'
}

program=${MRP:-$top/bin/mrp}
"$program" --help >/dev/null
echo "table words wall_least wall_middle processor_least processor_middle peak_kib"
for table; do
    "$program" plan --single <"$table" >"$folder/single.csv"
    run=0
    while [ "$run" -lt "$runs" ]; do
        for words in --single '--workers 1' '--workers 4' '--capacity 1' '--capacity 65536'; do
            # (the words are several)
            # shellcheck disable=SC2086
            command time -f '%e %U %S %M' -o "$folder/time" "$program" plan $words <"$table" >"$folder/report.csv"
            cmp -s "$folder/single.csv" "$folder/report.csv" || {
                echo "bench/threads.sh: another report with $words" >&2
                exit 1
            }
            awk '{ print $1, $2 + $3, $4 }' "$folder/time" >>"$folder/of$words"
        done
        run=$((run + 1))
    done
    for words in --single '--workers 1' '--workers 4' '--capacity 1' '--capacity 65536'; do
        peak=$(sort -n -k 3,3 "$folder/of$words" | awk 'END { print $3 }')
        echo "$(basename "$table") $words $(least_and_middle "$folder/of$words" 1) $(least_and_middle "$folder/of$words" 2) $peak"
        rm "$folder/of$words"
    done
done
