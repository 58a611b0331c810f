#!/usr/bin/env bash
# What a search of a registry takes, by the number of made records that are loaded, in the largest room: the processor
# time of the first thread of a run with many searches for one query less that of a run with one, least of three. Loads
# are in other threads. Beside it stands what `find` takes on the same file beyond `check`. Then searches while two
# loaders load: how far the front came from one to the next.
# Usage: bench/search.sh [RECORDS...]
set -u
here=$(cd "$(dirname "$0")" && pwd)
. "$here/timing.sh"
[ $# -gt 0 ] || set -- 2000 20000 100000
"$here/../htss" make 1 7 >/dev/null || exit 1
program=$(cd "$here/../crates/htss_main/out" && pwd)/htss_main
python3 "$here/make_queries.py" "$folder" || exit 1
cd "$folder" || exit 1
limits='--loaders 2 --searchers 1 --room 16777216 --log 1048576 --pages 2097152'

# The least processor time of the first thread in three runs of a command, in microseconds. The last one's text is kept.
spent() {
  local least= took
  for _ in 1 2 3; do
    took=$(python3 "$here/main_time.py" told.txt "$@")
    if [ -z "$least" ] || [ "$took" -lt "$least" ]; then least=$took; fi
  done
  echo "$least"
}

# How many searches for the query take long enough to be told from the rest of a run, where so many records are loaded.
searches() {
  case $1 in
  chalcogens) echo $((2048 + 12000000 / $2)) ;;
  chain) echo $((64 + 1000000 / $2)) ;;
  ring) echo $((8 + 200000 / $2)) ;;
  esac
}

# The script that loads, with one search beside it, and then does so many more.
script() {
  printf 'load first.sdf\nload second.sdf\nsearch none.mol\nsettle\n'
  for _ in $(seq "$2"); do echo "search $1.mol"; done
}

cp chalcogens.mol none.mol
for records in "$@"; do
  "$program" make "$((records / 2))" 7 >first.sdf
  "$program" make "$((records - records / 2))" 8 >second.sdf
  cat first.sdf second.sdf >made.sdf
  script none 0 >load.txt
  without=$(spent "$program" run load.txt $limits)
  check=$(spent "$program" check made.sdf)
  printf '%7d records: a run without searches %d us, check %d us\n' "$records" "$without" "$check"
  for query in chalcogens chain ring; do
    times=$(searches "$query" "$records")
    script "$query" "$times" >search.txt
    with=$(spent "$program" run search.txt $limits)
    told=$(awk '/^hits/ { line = $0 } END { print line }' told.txt)
    find=$(spent "$program" find made.sdf "$query.mol")
    printf '%7d records, %-10s %9.1f us a search (%d), find %d us beyond check: %s\n' "$records" "$query" \
      "$(awk -v t=$((with - without)) -v n="$times" 'BEGIN { print t / n }')" "$times" $((find - check)) "$told"
  done
done

# Searches while two loaders load. A report has no clock, but each answer names its front: what the loaders published
# between a search and the next one is how long it took, in events.
"$program" make 20000 7 >made.sdf
"$program" make 20000 8 >first.sdf
"$program" make 20000 9 >second.sdf
for query in chalcogens:8192 chain:512; do
  times=${query#*:} query=${query%:*}
  printf 'load made.sdf\nsettle\nload first.sdf\nload second.sdf\n' >search.txt
  for _ in $(seq "$times"); do echo "search $query.mol"; done >>search.txt
  "$program" run search.txt $limits | awk '/^search/ { print $5 }' >fronts.txt
  awk 'NR > 1 && last < 60000 { print $1 - last } { last = $1 }' fronts.txt | sort -n >steps.txt
  awk -v name="$query" '{ step[NR] = $1 } END {
    printf "%-10s %d searches while 40000 records were loaded: events from one to the next, ", name, NR
    most = int(NR * 99 / 100)
    printf "median %d, 99 of 100 at most %d, most %d\n", step[int((NR + 1) / 2)], step[most], step[NR] }' steps.txt
done
