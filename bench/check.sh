#!/usr/bin/env bash
# Records and bytes per second of `check`, beside the readers of RDKit (unsanitized) and of Open Babel where these are
# installed (Debian: python3-rdkit and openbabel), on made files without and with data items. Best of five runs each,
# the same files in one run.
# Usage: bench/check.sh [RECORDS]
set -u
here=$(cd "$(dirname "$0")" && pwd)
. "$here/timing.sh"
records=${1:-20000}

compare() {
  "$here/../htss" check "$sdf" >"$folder/checked.txt" || exit 1
  tail -n 1 "$folder/checked.txt"
  report 'htss check' "$(best "$here/../crates/htss_main/out/htss_main" check "$sdf")"
  report 'cat (reading alone)' "$(best cat "$sdf")"
  if /usr/bin/python3 -c 'import rdkit' 2>/dev/null; then
    /usr/bin/python3 "$here/rdkit_read.py" "$sdf"
  else
    echo 'RDKit: not installed'
  fi
  if command -v obabel >/dev/null; then
    report 'Open Babel (no output)' "$(best obabel "$sdf" -onul)"
  else
    echo 'Open Babel: not installed'
  fi
}

echo 'made records'
"$here/../htss" make "$records" 7 >"$sdf"
compare
echo 'made records with data items'
awk '{ print } /^M  END$/ { n++; for (i = 1; i <= 20; i++) printf "> <ITEM_%d>\nvalue %d of item %d\n\n", i, n, i }' \
  "$sdf" >"$folder/items.sdf"
mv "$folder/items.sdf" "$sdf"
compare
