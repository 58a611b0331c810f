#!/usr/bin/env bash
# Whether each command runs in so many KB of main stack, `run` with 16 loaders and 16 searchers, each of which has a job; and the least
# stack, in steps of 16 KB, in which it still does. Threads of the program have stacks of their own, which the limit sizes too where it is
# below their default.
# Usage: bench/stack.sh [KILOBYTES]
set -u
here=$(cd "$(dirname "$0")" && pwd)
. "$here/timing.sh"
most=${1:-512}
"$here/../htss" make 200 7 >"$sdf" || exit 1
program=$(cd "$here/../crates/htss_main/out" && pwd)/htss_main
data=$here/../crates/htss_main/data
cp "$data/co.mol" "$folder/co.mol"
cd "$folder" || exit 1
{
  for _ in $(seq 16); do echo 'load made.sdf'; done
  for _ in $(seq 16); do echo 'search co.mol'; done
  echo settle
  for number in $(seq 16); do echo "withdraw $number"; done
  echo 'search co.mol'
} >script.txt

# Whether the command ends with status 0 under this limit.
runs_in() {
  local kilobytes=$1
  shift
  { (ulimit -s "$kilobytes" && exec "$program" "$@" >/dev/null 2>&1); } 2>/dev/null
}

failed=0
for words in 'find made.sdf co.mol' 'check made.sdf' 'codes co.mol' 'make 20 7' 'make 20 7 --summary' \
  'run script.txt --loaders 16 --searchers 16 --pages 20000 --room 100000 --log 10000'; do
  # the words of a command stand apart
  # shellcheck disable=SC2086
  if runs_in "$most" $words; then state=runs; else state='DOES NOT RUN'; failed=1; fi
  least=$most
  # shellcheck disable=SC2086
  while [ "$least" -gt 32 ] && runs_in $((least - 16)) $words; do least=$((least - 16)); done
  printf '%-14s in %4d KB, least %4d KB: %s\n' "$state" "$most" "$least" "$words"
done
exit $failed
