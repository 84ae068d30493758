#!/bin/sh
# Prints the table on standard input, and behind it a usage row for each of its bill rows: for what usages cost beside the table without.
#
#   bench/usages.sh PER BASE    of each bill PER pieces go into BASE parents from period 0 on, as 103 into 100
#   bench/usages.sh same        as many go into one as the bill says: the plan is that of the table
#
# bench/reports.sh table prints a large table. It needs awk.
set -eu
case "$# ${1-}" in
"2 "* | "1 same") ;;
*)
    echo "bench/usages.sh: PER BASE, or same" >&2
    exit 2
    ;;
esac
exec awk -F, -v per="${1#same}" -v base="${2-1}" '
    { print }
    $1 == "bill" { usages[++count] = "usage," $2 "," $3 "," $4 ",0," (per == "" ? $5 : per) "," base "," }
    END { for (k = 1; k <= count; k++) print usages[k] }'
