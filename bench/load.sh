#!/usr/bin/env bash
# How fast one loader loads, by the number of made records, and how many pages their rows take. The time is the
# processor time of a whole run less that of an empty script on the same board, the largest that a shape allows: reading
# the file, the tree and writing the report are in it. Making the board takes longer than loading 10,000 records, and
# its time differs from run to run; so each time is the least of nine, and the runs are made in turn. The pages are the
# fewest with which every record of the smallest load is published.
# Usage: bench/load.sh [RECORDS...]
set -u
here=$(cd "$(dirname "$0")" && pwd)
. "$here/timing.sh"
[ $# -gt 0 ] || set -- 10000 30000 90000
"$here/../htss" make 1 7 >/dev/null || exit 1
program=$(cd "$here/../crates/htss_main/out" && pwd)/htss_main
cd "$folder" || exit 1
limits='--loaders 1 --searchers 1 --room 16777216 --log 1048576'
most='--pages 1048576'
for records in "$@"; do
  "$program" make "$records" 7 >"made$records.sdf"
  printf 'load made%s.sdf\n' "$records" >"$records.txt"
done
printf '' >0.txt

# The processor time of a run of this script, in microseconds.
spent() { { TIMEFORMAT='%U %S'; time "$program" run "$1.txt" $limits $most >/dev/null 2>&1; } 2>&1 | awk '{ printf "%d", ($1 + $2) * 1000000 }'; }

declare -A least=()
for _ in 1 2 3 4 5 6 7 8 9; do
  for records in 0 "$@"; do
    took=$(spent "$records")
    if [ -z "${least[$records]-}" ] || [ "$took" -lt "${least[$records]}" ]; then least[$records]=$took; fi
  done
done

# How many records are published on a board of so many pages.
published() { "$program" run "$1.txt" $limits --pages "$2" | grep -c '^published'; }

# The fewest pages with which all of so many records are published, found by halving.
fewest() {
  local below=15 enough=1048576 middle
  while [ $((below + 1)) -lt "$enough" ]; do
    middle=$(((below + enough) / 2))
    if [ "$(published "$1" "$middle")" -eq "$1" ]; then enough=$middle; else below=$middle; fi
  done
  echo "$enough"
}

rows_of() { "$program" make --summary "$1" 7 | awk '{ print $6 }'; }

echo "an empty script: ${least[0]} us"
first=
for records in "$@"; do
  sdf=$folder/made$records.sdf rows=$(rows_of "$records")
  took=$((least[$records] - least[0]))
  report "loading $records" "$took"
  [ -n "$first" ] || first=$((took * 1000 / records))
  awk -v t="$took" -v n="$records" -v r="$rows" -v first="$first" 'BEGIN {
    printf "  %.0f ns a record, %.2f times the first; %d rows, %.0f ns a row\n", t * 1000 / n, t * 1000 / n / first, r, t * 1000 / r }'
done
rows=$(rows_of "$1")
pages=$(fewest "$1")
awk -v p="$pages" -v r="$rows" 'BEGIN { printf "pages for %d rows: %d, %.3f a row\n", r, p, p / r }'
