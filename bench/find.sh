#!/usr/bin/env bash
# Records per second of `find` with the query of a six-ring, beside RDKit (as written, unsanitized) and Open Babel where
# these are installed (Debian: python3-rdkit and openbabel). Best of five runs each, the same files in one run.
# Usage: bench/find.sh [RECORDS]
set -u
here=$(cd "$(dirname "$0")" && pwd)
. "$here/timing.sh"
records=${1:-20000}
query=$folder/ring.mol
"$here/../htss" make "$records" 7 >"$sdf"
python3 "$here/make_queries.py" "$folder"
"$here/../htss" find "$sdf" "$query" >"$folder/hits.txt" || exit 1
tail -n 1 "$folder/hits.txt"

report 'htss find' "$(best "$here/../crates/htss_main/out/htss_main" find "$sdf" "$query")"
report 'cat (reading alone)' "$(best cat "$sdf")"
if /usr/bin/python3 -c 'import rdkit' 2>/dev/null; then
  /usr/bin/python3 "$here/rdkit_find.py" "$sdf" "$query"
else
  echo 'RDKit: not installed'
fi
if command -v obabel >/dev/null; then
  took=$(best obabel "$sdf" -osmi -O "$folder/out.smi" -s 'c1ccccc1')
  report 'Open Babel (aromatic ring)' "$took"
else
  echo 'Open Babel: not installed'
fi
