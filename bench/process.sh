#!/usr/bin/env bash
# The program as a process: disks that are full, pipes that close, descriptors that are closed, things in place of files, words that are no text, limits of
# the system, signals. For each the line that a person sees last, and the status; it ends with 1 where one is another than it should be.
# Usage: bench/process.sh, or HTSS=PROGRAM bench/process.sh for a program that is there.
set -u
here=$(cd "$(dirname "$0")" && pwd)
. "$here/timing.sh"
if [ -z "${HTSS-}" ]; then
  "$here/../htss" check /dev/null >/dev/null || exit 1
  HTSS=$here/../crates/htss_main/out/htss_main
fi
HTSS=$(readlink -f "$HTSS")
data=$here/../crates/htss_main/data
cp "$data/co.mol" "$data/a.sdf" "$folder" || exit 1
chmod 755 "$folder"
cd "$folder" || exit 1
"$HTSS" make 20000 7 >made.sdf
printf 'load a.sdf\nsettle\nsearch co.mol\n' >small.txt
printf 'load made.sdf\n' >long.txt
failed=0

# One case: what it is, the status and the last line that are wanted, and a command that leaves its output in out.txt. A status `-` is any.
tell() {
  local what=$1 status=$2 line=$3 found last
  shift 3
  : >out.txt
  "$@"
  found=$?
  last=$(tail -n 1 out.txt | tr -d '\0' | cut -c 1-60)
  if { [ "$status" != - ] && [ "$found" != "$status" ]; } || [ "$last" != "$line" ]; then
    printf 'NOT %s, %s: ' "$status" "${line:-nothing}"
    failed=1
  fi
  printf '%-62s status %3d  %s\n' "$what" "$found" "${last:-nothing}"
}

into() { timeout 60 "$HTSS" "$@" >out.txt 2>&1; }
onto() { local out=$1; shift; timeout 60 "$HTSS" "$@" >"$out"; }
closed() { timeout 60 "$HTSS" "$@" >&-; }
no_input() { timeout 60 "$HTSS" "$@" <&- >out.txt; }
# The reader of the pipe ends at once, or after a first byte.
piped() { timeout 60 "$HTSS" make 20000 7 | head -c "$1" >/dev/null; return "${PIPESTATUS[0]}"; }
from_fifo() { rm -f fifo; mkfifo fifo; cat a.sdf >fifo & into check fifo; }
# Nobody ever writes into this one.
idle_fifo() { rm -f fifo; mkfifo fifo; timeout 2 "$HTSS" check fifo >out.txt; }
unread() { cp a.sdf secret.sdf; chmod 000 secret.sdf; setpriv --reuid=65534 --regid=65534 --clear-groups "$HTSS" check secret.sdf >out.txt; }
limited() { { (ulimit "$1" "$2"; shift 2; exec "$HTSS" "$@" >out.txt 2>&1); } 2>/dev/null; }
# The text that is there is a front of the whole one.
written_in_part() {
  limited -f 1 make 200 7
  local status=$?
  "$HTSS" make 200 7 | head -c 1024 | cmp -s - out.txt || return 100
  : >out.txt
  return "$status"
}
# Each thread is a process of a user that may have only so many.
few_threads() {
  chmod 666 out.txt
  setpriv --reuid=65534 --regid=65534 --clear-groups bash -c 'ulimit -u 3; exec "$@"' bash "$HTSS" \
    run small.txt --loaders 16 --searchers 16 --pages 64 --room 100 --log 8 >out.txt 2>&1
}
# The file is appended to while it is read: what is printed counts the records that were read.
growing() {
  local status
  cp made.sdf grows.sdf
  (for _ in $(seq 200); do cat a.sdf >>grows.sdf; done) &
  into check grows.sdf
  status=$?
  wait $!
  awk '/^records / { ok = $2 >= 20000 && $4 + $6 == $2 } END { exit !ok }' out.txt || return 100
  echo counted >>out.txt
  return "$status"
}
# The file is cut to nothing while it is read.
shrinking() {
  local status
  cp made.sdf shrinks.sdf
  (sleep 0.01; : >shrinks.sdf) &
  into check shrinks.sdf
  status=$?
  wait $!
  awk '/^records / { ok = $2 <= 20001 && $4 + $6 == $2 } END { exit !ok }' out.txt || return 100
  echo counted >>out.txt
  return "$status"
}
signalled() {
  # a shell lets its background processes ignore an interrupt
  env --default-signal=INT "$HTSS" run long.txt >out.txt &
  sleep 0.15
  kill "-$1" $!
  wait $! 2>/dev/null
}
sparse() { truncate -s "$1" sparse.sdf; into check sparse.sdf; }

echo '-- what goes out'
tell 'standard output on a full disk' 5 '' onto /dev/full find a.sdf co.mol
tell 'a run on a full disk' 5 '' onto /dev/full run small.txt
tell 'no words at all on a full disk' 5 '' onto /dev/full
tell 'standard output closed' 5 '' closed find a.sdf co.mol
tell 'the reader of the pipe has ended at once' 5 '' piped 0
tell 'the reader of the pipe ends after a byte' 5 '' piped 1
echo '-- what comes in'
tell 'a folder in place of a file' 4 'stop 4 read .' into check .
tell 'a folder in place of a script' 4 'stop 4 read .' into run .
tell 'a fifo in place of a file' 0 'records 2 ok 2 refused 0' from_fifo
tell 'a fifo that nobody writes into: ended after two seconds' 124 '' idle_fifo
tell 'a file that may not be read' 4 'stop 4 read secret.sdf' unread
tell 'a file that grows' 0 counted growing
tell 'a file that is cut' 0 counted shrinking
tell 'no such file' 7 'stop 7 absent none.sdf' into check none.sdf
tell 'a file below a file' 4 'stop 4 read a.sdf/b.sdf' into check a.sdf/b.sdf
ln -s loop loop
tell 'a link to itself' 4 'stop 4 read loop' into check loop
tell 'a name of 5000 bytes' 4 "stop 4 read $(printf 'x%.0s' $(seq 48))" into check "$(printf 'x%.0s' $(seq 5000))"
tell 'memory of the process in place of a file' 4 'stop 4 read /proc/self/mem' into check /proc/self/mem
tell 'a stream without an end' 8 'stop 8 large /dev/zero' into check /dev/zero
tell 'a file of 268,435,456 bytes, all zero' 0 'records 1 ok 0 refused 1' sparse 268435456
tell 'a file of 268,435,457 bytes' 8 'stop 8 large sparse.sdf' sparse 268435457
tell 'standard input, closed' 7 'stop 7 absent /dev/stdin' no_input check /dev/stdin
tell 'the null device' 0 'records 0 ok 0 refused 0' into check /dev/null
echo '-- words'
tell 'a word that is no UTF-8' 2 'stop 2 usage' into check $'\xff.sdf'
tell 'a word of 100,000 bytes' 4 "stop 4 read $(printf 'x%.0s' $(seq 48))" into check "$(head -c 100000 /dev/zero | tr '\0' x)"
tell 'no words' 2 'stop 2 usage' into
echo '-- limits of the system'
tell 'address space below the words of the board' 6 'stop 6 memory' limited -v 100000 run small.txt
tell 'address space below a file of 28 MB' 0 'records 20000 ok 20000 refused 0' limited -v 30000 check made.sdf
tell 'three threads at most, for 32 callers' 0 end few_threads
tell 'a stack of 512 KB' 0 end limited -s 512 run small.txt --loaders 16 --searchers 16
tell 'a stack of 32 KB' 139 '' limited -s 32 run small.txt
tell 'files of at most 1 KB may be written: the first 1 KB are there' 153 '' written_in_part
echo '-- signals, in the middle of a run'
tell 'interrupted' 130 '' signalled INT
tell 'ended' 143 '' signalled TERM
tell 'killed' 137 '' signalled KILL
exit $failed
