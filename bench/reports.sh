#!/bin/sh
# Measures the reports of a plan beside the plan itself, run after run in turn to the null device, and prints for each command
# the least seconds (wall, then processor), the peak memory in KiB, the bytes of the report, and megabytes a second of wall time.
#
#   bench/reports.sh [RUNS] [TABLE]     RUNS is 1 to 99, 9 where it isn't given
#   bench/reports.sh table              prints the table that is measured where no TABLE is given
#
# MRP may name the program; else it is bin/mrp's. It needs awk and GNU time.
set -eu
top=$(CDPATH='' cd -- "$(dirname -- "$0")/.." && pwd)

# A firm near the limits: 64 plants with 312 items each, in six levels of 52. What is made is made of 13 items of the level below.
# Of each four plants the last supplies the others with every fourth item, and with the fourth plant of the next four every
# eighth. A pair has 50 demands and five open orders, a lane 20 shipments of each item, an opening figure and a new start.
make_table() {
    awk 'BEGIN {
        plants = 64; items = 312; wide = 52; periods = 104
        print "run,2026-01-05,7," periods ",,,,"
        for (p = 0; p < plants; p++) print "plant,P" p ",,,,,,"
        split("lot fixed:500 periods:4 min:200:50", rules, " ")
        for (p = 0; p < plants; p++) for (i = 0; i < items; i++) {
            last = p - p % 4 + 3
            supply[p, i] = i < items - wide ? "make" : "buy"
            if (p < last && i % 4 == 3) {
                supply[p, i] = "from:P" last
                sources[p, i, 1] = last
                if (i % 8 == 7 && last + 4 < plants) {
                    supply[p, i] = supply[p, i] ":600:P" (last + 4) ":400"
                    sources[p, i, 2] = last + 4
                }
            }
            print "pair,P" p ",I" i "," supply[p, i] "," rules[i % 4 + 1] "," i % 5 "," (i * 7) % 900 "," i % 110
        }
        for (p = 0; p < plants; p++) for (i = 0; i < items; i++) if (supply[p, i] == "make") {
            next_level = (int(i / wide) + 1) * wide
            for (k = 0; k < 13; k++) print "bill,P" p ",I" i ",I" next_level + (i + 4 * k) % wide ",1,,,"
        }
        for (p = 0; p < plants; p++) for (i = 0; i < items; i++) for (k = 0; k < 50; k++)
            print "demand,P" p ",I" i "," (k * 13 + i) % periods "," 1 + (i + k) % 40 ",,,"
        for (p = 0; p < plants; p++) for (i = 0; i < items; i++) for (k = 0; k < 5; k++)
            print "receipt,P" p ",I" i "," (k * 29 + i * 7) % periods "," 1 + (i * (k + 1)) % 500 ",,,"
        for (p = 0; p < plants; p++) for (i = 0; i < items; i++) for (s = 1; s <= 2; s++) if ((p, i, s) in sources)
            for (k = 0; k < 20; k++) print "ship,P" sources[p, i, s] ",P" p ",I" i "," k * 5 "," 1 + (i + k) % 30 ",,"
        for (p = 0; p < plants; p++) for (i = 0; i < items; i++) for (s = 1; s <= 2; s++) if ((p, i, s) in sources)
            print "cum,P" sources[p, i, s] ",P" p ",I" i ",1000,,,"
        for (p = 0; p < plants; p++) for (i = 0; i < items; i++) for (s = 1; s <= 2; s++) if ((p, i, s) in sources)
            print "reset,P" sources[p, i, s] ",P" p ",I" i ",50,,,"
    }'
}

if [ "${1:-}" = table ]; then
    make_table
    exit
fi
runs=${1:-9}
case $runs in
[1-9] | [1-9][0-9]) ;;
*)
    echo "bench/reports.sh: RUNS is 1 to 99" >&2
    exit 2
    ;;
esac
if [ -z "${MRP-}" ]; then
    "$top/bin/mrp" --help >/dev/null
fi
program=${MRP:-$top/crates/mrp/out/mrp}
folder=$(mktemp -d)
trap 'rm -rf "$folder"' EXIT
table=${2:-$folder/table.csv}
[ $# -gt 1 ] || make_table >"$table"

set -- "plan --single" "orders --until 0" pegs schedule advice shortages
run=0
while [ "$run" -lt "$runs" ]; do
    for words; do
        # (the words are several)
        # shellcheck disable=SC2086
        command time -f '%e %U %S %M' -o "$folder/time" "$program" $words <"$table" >/dev/null
        awk '{ print $1, $2 + $3, $4 }' "$folder/time" >>"$folder/of $words"
    done
    run=$((run + 1))
done
echo "command wall processor peak_kib bytes mb_a_second"
for words; do
    # shellcheck disable=SC2086
    bytes=$("$program" $words <"$table" | wc -c)
    awk -v words="$words" -v bytes="$bytes" '
        NR == 1 || $1 < wall { wall = $1 }
        NR == 1 || $2 < processor { processor = $2 }
        $3 > peak { peak = $3 }
        END { printf "%s %.2f %.2f %d %d %.0f\n", words, wall, processor, peak, bytes, bytes / 1e6 / (wall > 0 ? wall : 0.01) }' "$folder/of $words"
done
