#!/usr/bin/env bash
# What more processes bring to `find`: one large file by one process, and in parts by GNU parallel with one, two and four at a time; and
# the same records in sixteen files, by xargs. Best of five runs each, the same files in one run. The search goes on the machine as it is:
# the numbers say little while it has other work.
# Usage: bench/scale.sh [RECORDS]
set -u
here=$(cd "$(dirname "$0")" && pwd)
. "$here/timing.sh"
records=${1:-100000}
"$here/../htss" make "$records" 7 >"$sdf" || exit 1
program=$(cd "$here/../crates/htss_main/out" && pwd)/htss_main
query=$here/../examples/benzene.mol
cd "$folder" || exit 1
mkdir files
awk -v most=$((records / 16 + 1)) '{ print > ("files/" int(n / most) ".sdf") } /^\$\$\$\$/ { n++ }' "$sdf"

in_parts() { parallel --will-cite -j "$1" --pipepart -a "$sdf" --recend '$$$$\n' --block 8M -k "$program find /dev/stdin $query"; }
by_files() { printf '%s\n' files/* | xargs -P "$1" -I FILE sh -c '"$1" find "$2" "$3" >"$2.hits"' - "$program" FILE "$query"; }

nproc | sed 's/$/ processors, load:/'
cat /proc/loadavg
"$program" find "$sdf" "$query" | tail -n 1
report 'one process, one file' "$(best "$program" find "$sdf" "$query")"
if command -v parallel >/dev/null; then
  in_parts 4 | grep -c '^hit '
  for jobs in 1 2 4; do report "parallel -j $jobs, in parts" "$(best in_parts "$jobs")"; done
else
  echo 'GNU parallel: not installed'
fi
for jobs in 1 2 4; do report "xargs -P $jobs, 16 files" "$(best by_files "$jobs")"; done
cat files/*.hits | grep -c '^hit '
