#!/bin/sh
# Measures `mrp plan --single` on tables that it makes, each twice the one before, and prints for each
# the pairs, the rows of the table and of the report, seconds of the whole run and peak memory.
#
#   bench/run.sh [PAIRS]      PAIRS is the number of pairs of the largest table: a multiple of 64,
#                             384 to 19968
#
# It needs awk and GNU time.
set -eu
top=$(CDPATH='' cd -- "$(dirname -- "$0")/.." && pwd)
most=${1:-19968}
case $most in
*[!0-9]* | '' | ?????? | 0*) most=0 ;;
esac
if [ "$most" -lt 384 ] || [ "$most" -gt 19968 ] || [ $((most % 64)) -ne 0 ]; then
    echo "bench/run.sh: PAIRS is a multiple of 64, 384 to 19968" >&2
    exit 2
fi
folder=$(mktemp -d)
trap 'rm -rf "$folder"' EXIT

# A firm of 8 plants. The items of a plant stand in six levels: those of the first five are made, each
# of up to ten items of the level below. Every 50th pair of a plant is taken from the plant after it,
# and each pair has six or seven demand rows.
make_table() {
    awk -v pairs="$1" 'BEGIN {
        plants = 8; periods = 104; of = int(pairs / plants); wide = int(of / 6)
        print "run,2026-01-05,7," periods ",,,,"
        for (p = 0; p < plants; p++) print "plant,P" p ",,,,,,"
        split("lot fixed:50 periods:4 min:20:5", rules, " ")
        for (p = 0; p < plants; p++) for (i = 0; i < of; i++) {
            supply = i < 5 * wide ? "make" : "buy"
            if (i % 50 == 49 && p + 1 < plants) supply = "from:P" (p + 1)
            print "pair,P" p ",I" i "," supply "," rules[i % 4 + 1] "," i % 5 "," (i * 7) % 90 "," i % 11
        }
        for (p = 0; p < plants; p++) for (i = 0; i < 5 * wide; i++) {
            if (i % 50 == 49 && p + 1 < plants) continue
            seen = " "
            for (k = 1; k <= 10; k++) {
                c = (int(i / wide) + 1) * wide + (i * 31 + k * 17) % wide
                if (index(seen, " " c " ") == 0) {
                    seen = seen c " "
                    print "bill,P" p ",I" i ",I" c "," (i + k) % 3 + 1 ",,,"
                }
            }
        }
        for (p = 0; p < plants; p++) for (i = 0; i < of; i++) for (k = 0; k < 50; k++)
            if ((i + k) % 8 == 0) print "demand,P" p ",I" i "," (k * 13 + i) % periods "," 1 + (i + k) % 40 ",,,"
    }'
}

"$top/bin/mrp" --help >/dev/null
echo "pairs rows report_rows seconds peak_kib"
pairs=$((most / 8))
while [ "$pairs" -le "$most" ]; do
    make_table "$pairs" >"$folder/table.csv"
    command time -f '%e %M' -o "$folder/time" "$top/bin/mrp" plan --single <"$folder/table.csv" >"$folder/report.csv"
    echo "$(grep -c '^pair,' "$folder/table.csv") $(wc -l <"$folder/table.csv") $(wc -l <"$folder/report.csv") $(cat "$folder/time")"
    pairs=$((pairs * 2))
done
