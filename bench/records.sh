#!/bin/sh
# Measures books and the reading of records: a book beside a plain struct of counters, and `read_records`
# beside `csv` alone on the same text. Prints a line for each run with seconds and peak memory in KiB.
#
#   bench/records.sh [LINES] [ROWS]      how many lines are booked and how many rows are read
#
# It needs rustc, awk and GNU time. The program is built over the crates of the project, which it leaves as
# they are: they are copied with what is proved of them.
set -eu
top=$(CDPATH='' cd -- "$(dirname -- "$0")/.." && pwd)
. "$top/bench/room.sh"
lines=${1:-10000000}
rows=${2:-4000000}
folder=$(mktemp -d)
trap 'rm -rf "$folder"' EXIT

make_room "$folder" records mrp_qty mrp_master_data mrp_tables mrp_net mrp_record mrp_record_csv mrp_book csv
(cd "$folder/crates/bench_records" && rt run -- book 1 1 >/dev/null)
program=$folder/crates/bench_records/out/bench_records
rustc --edition 2021 -C opt-level=3 -C panic=abort -o "$folder/counters" "$top/bench/records/counters.rs"

awk -v rows="$rows" 'BEGIN {
    for (n = 1; n <= rows; n++) print "line," n ",X," n % 104 ",1," n
}' >"$folder/records.csv"

# Runs the words five times over the input and prints the fastest.
measure() {
    name=$1 input=$2
    shift 2
    for _ in 1 2 3 4 5; do
        command time -f '%e %M' -o "$folder/time" "$@" <"$input" >"$folder/out"
        cat "$folder/time"
    done | sort -n | head -n 1 >"$folder/fastest"
    echo "$name $(cat "$folder/out") $(cat "$folder/fastest")"
}

echo "what count seconds peak_kib"
measure book_one_item /dev/null "$program" book 1 "$lines"
measure counters_one_item /dev/null "$folder/counters" 1 "$lines"
measure book_20000_items /dev/null "$program" book 20000 $((lines / 20000))
measure counters_20000_items /dev/null "$folder/counters" 20000 $((lines / 20000))
measure read_records "$folder/records.csv" "$program" read
measure csv_alone "$folder/records.csv" "$program" rows
