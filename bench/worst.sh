#!/usr/bin/env bash
# What the worst input costs each reader: milliseconds for a megabyte, at so many megabytes and at twice as many, the least of three runs. Where
# the time is linear in the bytes, both are the same.
# Usage: bench/worst.sh [MEGABYTES], or HTSS=PROGRAM bench/worst.sh ... for a program that is there.
set -u
here=$(cd "$(dirname "$0")" && pwd)
. "$here/timing.sh"
if [ -z "${HTSS-}" ]; then
  "$here/../htss" check /dev/null >/dev/null || exit 1
  HTSS=$here/../crates/htss_main/out/htss_main
fi
HTSS=$(readlink -f "$HTSS")
size=${1:-4}
cd "$folder" || exit 1
cp "$here/../crates/htss_main/data/co.mol" .

# The milliseconds of the quickest of three runs.
least() {
  local best= start took
  for _ in 1 2 3; do
    start=$(date +%s%N)
    timeout 300 "$@" >/dev/null 2>&1
    took=$((($(date +%s%N) - start) / 1000))
    if [ -z "$best" ] || [ "$took" -lt "$best" ]; then best=$took; fi
  done
  echo "$best"
}

# A kind of input, and the command that reads input.txt.
cost() {
  local kind=$1 once twice
  shift
  python3 "$here/worst_input.py" "$kind" "$size" >input.txt
  once=$(least "$@")
  cat input.txt >more.txt && cat more.txt >>input.txt
  twice=$(least "$@")
  awk -v a="$once" -v b="$twice" -v m="$size" -v w="$2" -v k="$kind" 'BEGIN {
    printf "%-6s %-28s %8.1f ms/MB at %d MB, %8.1f at %d\n", w, k, a / m / 1000, m, b / m / 2000, 2 * m }'
}

for kind in 'blank lines' 'ends of records' 'records without atoms' 'records of one atom' 'a chain of 999 atoms' 'a ring of 999 atoms' 'a star of 999 atoms' \
  'a grid of 500 atoms' '999 atoms without a bond' 'lists of charges' 'lines that are passed over' 'lines of 4096 bytes' 'data lines of 100,000 bytes' 'zero bytes'; do
  cost "$kind" "$HTSS" check input.txt
done
for kind in 'ends of records' 'a chain of 999 atoms' 'a star of 999 atoms' 'a grid of 500 atoms'; do
  cost "$kind" "$HTSS" find input.txt co.mol
done
# the first section of a query
for kind in 'zero bytes' 'lists of charges' 'blank lines'; do
  cost "$kind" "$HTSS" find co.mol input.txt
done
for kind in 'comments' 'blank lines' 'zero bytes'; do
  cost "$kind" "$HTSS" run input.txt --pages 16 --room 10 --log 1
done
# equal records, loaded: each row walks past the rows with the same codes
printf 'load copies.sdf\n' >load.txt
for count in 8000 16000 32000; do
  for _ in $(seq "$count"); do cat "$here/../examples/refused/12-NoEnd.sdf"; done | sed 's/^\$\$\$\$$/M  END\n$$$$/' >copies.sdf
  printf 'run    %d equal records of one atom: %d ms\n' "$count" $(($(least "$HTSS" run load.txt --loaders 1 --pages 100000) / 1000))
done
