#!/bin/sh
# Measures records through one lane between two threads, beside plain Rust over crossbeam's `ArrayQueue`, in
# turn. Both make the records before the clock starts. Prints for each capacity a line for each program: the
# records, the fastest, the middle and the slowest run in microseconds, and records a second by the fastest.
#
#   bench/lanes.sh [RECORDS] [RUNS] [ITEMS]      1000000, 40 and 1; a tenth of the records at capacity 1
#
# All lines are of the lane's first item. Runs differ much by how the two threads come to meet at the queue, so
# the middle tells more than the fastest.
#
# It needs rustc and awk. CROSSBEAM names a folder with the sources of crossbeam-queue, crossbeam-utils and
# cfg-if, as Debian's package of crossbeam-queue brings them; without it the plain program has the same queue
# written out. Where `chrt` may, both programs run ahead of all other work, which else comes between when a
# thread yields. The program is built over the crates of the project, which it leaves as they are: they are
# copied with what is proved of them.
set -eu
top=$(CDPATH='' cd -- "$(dirname -- "$0")/.." && pwd)
. "$top/bench/room.sh"
records=${1:-1000000}
runs=${2:-40}
items=${3:-1}
folder=$(mktemp -d)
trap 'rm -rf "$folder"' EXIT

make_room "$folder" lanes mrp_qty mrp_master_data mrp_tables mrp_net mrp_loops mrp_record mrp_protocol mrp_lane \
    atomic_table crossbeam_queue

# Two plants: A takes X and the other items from B, and B ships X one by one. The last records are the ends of
# the items and the closing record.
make_table() {
    awk -v records="$1" -v items="$items" 'BEGIN {
        print "run,2026-01-05,7,4,,,,\nplant,A,,,,,,\nplant,B,,,,,,"
        for (i = 0; i < items; i++) {
            item = i == 0 ? "X" : "Y" i
            print "pair,A," item ",from:B,lot,1,0,0\npair,B," item ",buy,lot,0,0,0"
        }
        print "demand,A,X,2,30,,,"
        for (n = items + 2; n <= records; n++) print "ship,B,A,X,2,1,,"
    }'
}

make_table 100 >"$folder/table.csv"
(cd "$folder/crates/bench_lanes" && rt run -- 1 <"$folder/table.csv" >/dev/null)
program=$folder/crates/bench_lanes/out/bench_lanes

plain="rustc --edition 2021 -C opt-level=3 -C panic=abort -L $folder"
uses=
if [ -n "${CROSSBEAM:-}" ]; then
    for crate in cfg-if crossbeam-utils crossbeam-queue; do
        name=$(echo "$crate" | tr - _)
        $plain --cap-lints allow --crate-type rlib --crate-name "$name" --cfg 'feature="std"' --cfg 'feature="alloc"' $uses \
            -o "$folder/lib$name.rlib" "$CROSSBEAM/$crate"*/src/lib.rs
        uses="$uses --extern $name=$folder/lib$name.rlib"
    done
    uses="$uses --cfg crossbeam"
fi
$plain $uses -o "$folder/queue" "$top/bench/lanes/queue.rs"
ahead=
if chrt -f 1 true 2>/dev/null; then
    ahead="chrt -f 1"
fi

# Runs both programs in turn at a capacity and prints their lines.
measure() {
    capacity=$1 count=$2 run=0
    make_table "$count" >"$folder/table.csv"
    : >"$folder/lane.runs"
    : >"$folder/plain.runs"
    while [ "$run" -lt "$runs" ]; do
        $ahead "$program" "$capacity" <"$folder/table.csv" >>"$folder/lane.runs"
        $ahead "$folder/queue" "$capacity" "$count" >>"$folder/plain.runs"
        run=$((run + 1))
    done
    for name in lane plain; do
        sort -k2n "$folder/$name.runs" | awk -v name="$name $capacity" '{ count = $1; micros[NR] = $2 }
            END { print name, count, micros[1], micros[int((NR + 1) / 2)], micros[NR], int(count * 1000000 / micros[1]) }'
    done
}

echo "what capacity records fastest middle slowest a_second"
measure 1 $((records / 10))
measure 64 "$records"
measure 65536 "$records"
