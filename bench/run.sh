#!/usr/bin/env bash
# How fast files are made, and how fast scripts are run: `make` into a file, `make --summary`, and `run` of a script that loads the
# made file, and of one that then searches it for a ring that each record has; and what an empty script takes, by the program and
# by `htss`, which asks for large pages. Best of five runs each, the same files in one run.
# Usage: bench/run.sh [RECORDS]
set -u
here=$(cd "$(dirname "$0")" && pwd)
. "$here/timing.sh"
records=${1:-20000}
"$here/../htss" make "$records" 7 >"$sdf" || exit 1
program=$(cd "$here/../crates/htss_main/out" && pwd)/htss_main
python3 "$here/make_queries.py" "$folder"
cd "$folder" || exit 1
printf 'load made.sdf\n' >load.txt
printf 'load made.sdf\nsettle\nsearch ring.mol\n' >search.txt

report 'htss make, to a file' "$(best sh -c "'$program' make $records 7 >again.sdf")"
report 'cat, to a file' "$(best sh -c 'cat made.sdf >again.sdf')"
report 'htss make --summary' "$(best "$program" make "$records" 7 --summary)"
report 'htss check' "$(best "$program" check made.sdf)"
report 'htss run: load' "$(best "$program" run load.txt)"
report 'htss run: load, search' "$(best "$program" run search.txt)"
"$program" run search.txt | grep '^hits'
printf '' >nothing.txt
echo "an empty script, by the program: $(best "$program" run nothing.txt) us"
echo "an empty script, by htss:        $(best "$here/../htss" run nothing.txt) us"
