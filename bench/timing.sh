# What the scripts share: a folder that goes when the script ends, the place of its SDfile, the least of five runs, and a line of
# it. The script that reads this file says how many records the SDfile has.

folder=$(mktemp -d)
trap 'rm -rf "$folder"' EXIT
sdf=$folder/made.sdf

# The microseconds of the quickest of five runs of a command.
best() {
  local least=
  for _ in 1 2 3 4 5; do
    local start end took
    start=$(date +%s%N)
    "$@" >/dev/null 2>&1 || return 1
    end=$(date +%s%N)
    took=$(((end - start) / 1000))
    if [ -z "$least" ] || [ "$took" -lt "$least" ]; then least=$took; fi
  done
  echo "$least"
}

# A line with the name of a program and its microseconds.
report() {
  local name=$1 took=$2
  printf '%-28s %9d us  %9d records/s  %6.1f MB/s\n' "$name" "$took" $((records * 1000000 / took)) \
    "$(awk -v b="$(stat -c %s "$sdf")" -v t="$took" 'BEGIN { print b / t }')"
}
