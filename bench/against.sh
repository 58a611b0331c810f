#!/usr/bin/env bash
# The program as it stands beside an earlier one, on the same files in one run: `check`, and `find` with a query that is in
# each record and three that are in few or none. Best of five runs each. The other is a program, or a commit, which is proved
# and built first (some minutes). The last commit in which `find` searched each record without a screen is the one that says
# 'Drawn queries'.
# Usage: bench/against.sh PROGRAM|COMMIT [RECORDS]
set -u
here=$(cd "$(dirname "$0")" && pwd)
. "$here/timing.sh"
records=${2:-20000}
trap 'git -C "$here" worktree remove --force "$folder/tree" 2>/dev/null; rm -rf "$folder"' EXIT
other=$1
if [ ! -x "$other" ]; then
  git -C "$here" worktree add --detach --quiet "$folder/tree" "$1" || exit 1
  "$folder/tree/htss" check /dev/null >/dev/null || exit 1
  other=$folder/tree/crates/htss_main/out/htss_main
fi
"$here/../htss" check /dev/null >/dev/null || exit 1
this=$here/../crates/htss_main/out/htss_main
"$here/../htss" make "$records" 7 >"$sdf"
python3 "$here/make_queries.py" "$folder"

report 'check, other' "$(best "$other" check "$sdf")"
report 'check, this' "$(best "$this" check "$sdf")"
for query in ring chalcogens chain branched; do
  echo "$query.mol: $("$this" find "$sdf" "$folder/$query.mol" | tail -n 1)"
  report 'find, other' "$(best "$other" find "$sdf" "$folder/$query.mol")"
  report 'find, this' "$(best "$this" find "$sdf" "$folder/$query.mol")"
done
