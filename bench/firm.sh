#!/bin/sh
# Measures a firm that is driven beside the same table planned at once: a firm of plants that all take from
# each other. Prints a line for each run with what it counted, seconds and peak memory in KiB.
#
#   bench/firm.sh [PLANTS] [PAIRS]      PLANTS is 2 to 64, PAIRS at most 20,000
#   bench/firm.sh table PLANTS PAIRS    prints the table alone
#   bench/firm.sh plant [PAIRS]         one plant without lanes, with some eight bill rows a pair and 104 periods:
#                                       in each of twenty runs the microseconds of planning it at once, of its agent
#                                       alone, from the view to the last plan, and of driving it, from the network to
#                                       the last plan, each in a process of its own, and how many times as long as
#                                       the first the others take
#
# It needs awk and GNU time. The program is built over the crates of the project, which it leaves as they
# are: they are copied with what is proved of them.
set -eu
top=$(CDPATH='' cd -- "$(dirname -- "$0")/.." && pwd)
. "$top/bench/room.sh"

# Item k stands at each plant. It begins at plant k modulo PLANTS, its root: the plant at distance d from the
# root takes it from the root where k is below PLANTS, so that each two plants take from each other, and
# else from the plant at distance (d - 1) / 2. A root makes it of item k + PLANTS, which begins there too.
make_table() {
    awk -v plants="$1" -v pairs="$2" 'BEGIN {
        periods = 52; items = int((pairs + plants - 1) / plants)
        print "run,2026-01-05,7," periods ",,,,"
        for (p = 0; p < plants; p++) print "plant,P" p ",,,,,,"
        for (k = 0; k < items; k++) for (d = 0; d < plants && k * plants + d < pairs; d++) {
            from = "from:P" (k + (k < plants ? 0 : int((d - 1) / 2))) % plants
            own = (k + plants) * plants < pairs ? "make" : "buy"
            print "pair,P" (k + d) % plants ",I" k "," (d == 0 ? own : from) ",lot," k % 3 ",0,0"
        }
        for (k = 0; (k + plants) * plants < pairs; k++)
            print "bill,P" k % plants ",I" k ",I" k + plants ",1,,,"
        for (k = 0; k < items; k++) for (d = 0; d < plants && k * plants + d < pairs; d++)
            print "demand,P" (k + d) % plants ",I" k "," (k * 7 + d * 5) % periods "," 1 + (k + d) % 40 ",,,"
    }'
}

# A plant of ten levels, in which each pair that isn't of the last has nine components of the next.
make_plant() {
    awk -v pairs="$1" 'BEGIN {
        periods = 104; level = int(pairs / 10)
        print "run,2026-01-05,7," periods ",,,,"
        print "plant,P0,,,,,,"
        for (k = 0; k < level * 10; k++) print "pair,P0,I" k "," (k < level * 9 ? "make" : "buy") ",lot," k % 3 ",0,0"
        for (k = 0; k < level * 9; k++) for (j = 0; j < 9; j++)
            print "bill,P0,I" k ",I" (int(k / level) + 1) * level + (k * 7 + j * 101) % level ",1,,,"
        for (k = 0; k < level; k++) print "demand,P0,I" k "," k % periods "," 1 + k % 40 ",,,"
    }'
}

if [ "${1:-}" = table ]; then
    make_table "$2" "$3"
    exit
fi
plants=${1:-64}
pairs=${2:-20000}
[ "$plants" != plant ] || alone=yes
folder=$(mktemp -d)
trap 'rm -rf "$folder"' EXIT

make_room "$folder" firm mrp_qty mrp_master_data mrp_tables mrp_net mrp_plant_view mrp_loops mrp_plan mrp_record mrp_protocol \
    mrp_agent mrp_crew mrp_world
if [ "${alone:-}" ]; then make_plant "$pairs"; else make_table "$plants" "$pairs"; fi >"$folder/table.csv"
(cd "$folder/crates/bench_firm" && rt run -- plan <"$folder/table.csv" >/dev/null)
program=$folder/crates/bench_firm/out/bench_firm

# Runs the words five times over the table and prints the fastest.
measure() {
    for _ in 1 2 3 4 5; do
        command time -f '%e %M' -o "$folder/time" "$program" "$@" <"$folder/table.csv" >"$folder/out"
        cat "$folder/time"
    done | sort -n | head -n 1 >"$folder/fastest"
    echo "$* $(cat "$folder/out") $(cat "$folder/fastest")"
}

if [ "${alone:-}" ]; then
    echo "at_once_us agent_us driven_us agent driven"
    for _ in 1 2 3 4 5 6 7 8 9 10 11 12 13 14 15 16 17 18 19 20; do
        "$program" time_plan <"$folder/table.csv"
        "$program" time_agent <"$folder/table.csv"
        "$program" time_drive 64 <"$folder/table.csv"
    done | paste - - - | awk '{ printf "%s %s %s %.2f %.2f\n", $1, $2, $3, $2 / $1, $3 / $1 }'
    exit
fi

echo "what count seconds peak_kib"
measure plan
for capacity in 1 64 65536; do
    measure drive "$capacity"
done
