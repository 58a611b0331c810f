#!/usr/bin/env bash
# What a second loader brings: the same records in two files, loaded by a script of two lines, with one loader and with two, and how
# fast one loader loads them. Best of five runs each, the same files in one run. The board is as large with one loader as with two, and
# as small as the records need, so that making it counts little. Loading is a whole run less one of an empty script; reading the files and
# writing the report is in it.
# Usage: bench/loaders.sh [RECORDS]
set -u
here=$(cd "$(dirname "$0")" && pwd)
. "$here/timing.sh"
records=${1:-2000}
half=$((records / 2))
"$here/../htss" make "$half" 7 >"$folder/first.sdf" || exit 1
program=$(cd "$here/../crates/htss_main/out" && pwd)/htss_main
"$program" make "$half" 8 >"$folder/second.sdf" || exit 1
cat "$folder/first.sdf" "$folder/second.sdf" >"$sdf"
cd "$folder" || exit 1
printf 'load first.sdf\nload second.sdf\n' >load.txt
printf '' >nothing.txt
room=$((records * 200))
pages=$((records * 12 + 1000))
limits="--pages $pages --log $records --searchers 1"
alone="$limits --loaders 1 --room $room"
both="$limits --loaders 2 --room $((room / 2))"

# Both times, and the second as a part of the first.
compare() {
  local name=$1 one=$2 two=$3
  report "$name, one loader" "$one"
  report "$name, two loaders" "$two"
  awk -v one="$one" -v two="$two" 'BEGIN { printf "two loaders take %.2f of the time of one\n", two / one }'
}

board=$(best "$program" run nothing.txt $both)
report 'an empty script' "$board"
echo "published: $("$program" run load.txt $both | grep -c '^published')"
one=$(best "$program" run load.txt $alone)
two=$(best "$program" run load.txt $both)
compare 'whole run' "$one" "$two"
# What loading takes beyond the board, which the empty script makes and closes as well.
compare 'loading' "$((one - board))" "$((two - board))"
