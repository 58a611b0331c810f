#!/usr/bin/env bash
# Random differences, without end: over drawn files and queries the program answers in two ways, and both must be the same. A file is read whole, and from
# a pipe in random pieces; `find` answers as a board does that has loaded the file, by one loader and by four. The same is a test of the gate,
# `hostile_tests`, with a fixed number of cases.
# Usage: bench/differences.sh [FIRST SEED] [HOW MANY], or HTSS=PROGRAM bench/differences.sh ... for a program that is there.
set -u
here=$(cd "$(dirname "$0")" && pwd)
. "$here/timing.sh"
if [ -z "${HTSS-}" ]; then
  "$here/../htss" check /dev/null >/dev/null || exit 1
  HTSS=$here/../crates/htss_main/out/htss_main
fi
HTSS=$(readlink -f "$HTSS")
seed=${1:-1}
until=$((seed + ${2:-1000000000}))
cd "$folder" || exit 1
printf 'load drawn.sdf\nsettle\nsearch query.mol\n' >one.txt
printf 'load drawn.sdf\nload drawn.sdf\nload drawn.sdf\nload drawn.sdf\nsettle\nsearch query.mol\n' >four.txt
board='--pages 20000 --room 100000 --log 1000'

# The output of both is the same, or the seed is told.
same() {
  cmp -s "$2" "$3" && return
  echo "seed $seed: $1"
  diff "$2" "$3" | head -n 5
  exit 1
}

# Hits without their numbers, in order.
names() { sed -n 's/^hit [0-9]* //p' "$1" | sort; }

while [ "$seed" -lt "$until" ]; do
  python3 "$here/draw_records.py" "$seed" .
  "$HTSS" check drawn.sdf >whole.txt || { echo "seed $seed: status of check"; exit 1; }
  python3 "$here/draw_records.py" --pieces "$seed" drawn.sdf | "$HTSS" check /dev/stdin >pieces.txt
  same 'whole and in pieces' whole.txt pieces.txt
  "$HTSS" find drawn.sdf query.mol >found.txt || { echo "seed $seed: status of find"; exit 1; }
  # the words of an option stand apart
  # shellcheck disable=SC2086
  "$HTSS" run one.txt --loaders 1 --searchers 1 $board >one_report.txt || { echo "seed $seed: status of run"; exit 1; }
  grep '^hit ' found.txt >found_hits.txt
  grep '^hit ' one_report.txt >one_hits.txt
  same 'find and a board of one loader' found_hits.txt one_hits.txt
  grep '^refused ' found.txt >found_refused.txt
  grep '^refused ' one_report.txt >one_refused.txt
  same 'refused records' found_refused.txt one_refused.txt
  # shellcheck disable=SC2086
  "$HTSS" run four.txt --loaders 4 --searchers 1 $board >four_report.txt || { echo "seed $seed: status of run"; exit 1; }
  { names found.txt; names found.txt; names found.txt; names found.txt; } | sort >four_wanted.txt
  names four_report.txt >four_names.txt
  same 'find and a board of four loaders' four_wanted.txt four_names.txt
  seed=$((seed + 1))
  [ $((seed % 100)) -eq 0 ] && echo "$seed seeds: no difference"
done
exit 0
