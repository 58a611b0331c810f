#!/usr/bin/env bash
# What an audit of a report takes beside the run that printed it: a load of made records and then twenty searches, and the same with half
# as many records and searches, best of five each. The audit has to say that the report holds.
# Usage: bench/audit.sh [RECORDS [SEARCHES]]
set -u
here=$(cd "$(dirname "$0")" && pwd)
. "$here/timing.sh"
most=${1:-20000} searches=${2:-20}
"$here/../htss" make 1 7 >/dev/null || exit 1
program=$(cd "$here/../crates/htss_main/out" && pwd)/htss_main
python3 "$here/make_queries.py" "$folder" || exit 1
cd "$folder" || exit 1
for part in 2 1; do
  records=$((most / part)) times=$((searches / part))
  "$program" make "$records" 7 >made.sdf
  { printf 'load made.sdf\nsettle\n'
    for i in $(seq "$times"); do echo "search $(echo chalcogens chain ring | cut -d ' ' -f $((i % 3 + 1))).mol"; done; } >script.txt
  limits="--loaders 1 --searchers 1 --room 16777216 --log 1048576 --pages 1048576"
  "$program" run script.txt $limits >report.txt || exit 1
  run=$(best "$program" run script.txt $limits)
  audit=$(best "$program" audit script.txt report.txt)
  printf '%7d records, %3d searches: run %9d us, audit %9d us, %.2f times: %s\n' "$records" "$times" "$run" "$audit" \
    "$(awk -v a="$audit" -v r="$run" 'BEGIN { print a / r }')" "$("$program" audit script.txt report.txt | tail -n 1)"
done
