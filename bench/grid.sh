#!/usr/bin/env bash
# A hard case for the search: a chain of 12 atoms in a grid of 200 carbons, once found and once not. Beside `find` stands a
# plain scan (bench/plain_scan.rs, by rustc -O), which tries every atom of the molecule for each atom of the query; and RDKit
# where it is installed. Best of five runs of `find`, one of the others.
# Usage: bench/grid.sh
set -u
here=$(cd "$(dirname "$0")" && pwd)
. "$here/timing.sh"
python3 "$here/make_grid.py" "$folder"
rustc -O -o "$folder/plain_scan" "$here/plain_scan.rs" || exit 1
sdf=$folder/grid.sdf
records=1
for query in chain missing; do
  echo "$query.mol"
  "$here/../htss" find "$sdf" "$folder/$query.mol" | tail -n 1
  report 'htss find' "$(best "$here/../crates/htss_main/out/htss_main" find "$sdf" "$folder/$query.mol")"
  start=$(date +%s%N)
  "$folder/plain_scan" "$sdf" "$folder/$query.mol"
  report 'plain scan (once)' $((($(date +%s%N) - start) / 1000))
  if /usr/bin/python3 -c 'import rdkit' 2>/dev/null; then
    /usr/bin/python3 "$here/rdkit_find.py" "$sdf" "$folder/$query.mol"
  fi
done
