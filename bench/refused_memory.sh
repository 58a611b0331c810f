#!/usr/bin/env bash
# Memory that is refused: each growth of the program's memory fails in turn, one in each run of a command. The answer is then the right one, or status 6
# and the line `stop 6 memory`, after what a run had reported before. A small library, made here, stands before the C library's and refuses the
# one request; those that the C library makes for itself are none of the program's.
# `rt try --fail-alloc N` does the same on a build with checks, but builds anew for each number; the last line here says how to.
# Usage: bench/refused_memory.sh, or HTSS=PROGRAM bench/refused_memory.sh for a program that is there.
set -u
here=$(cd "$(dirname "$0")" && pwd)
. "$here/timing.sh"
if [ -z "${HTSS-}" ]; then
  "$here/../htss" check /dev/null >/dev/null || exit 1
  HTSS=$here/../crates/htss_main/out/htss_main
fi
HTSS=$(readlink -f "$HTSS")
command -v cc >/dev/null || { echo 'cc: not installed'; exit 1; }
data=$here/../crates/htss_main/data
cp "$data/co.mol" "$data/a.sdf" "$folder" || exit 1
cd "$folder" || exit 1

cat >refuse.c <<'END'
#define _GNU_SOURCE
#include <errno.h>
#include <fcntl.h>
#include <link.h>
#include <stdatomic.h>
#include <stdlib.h>
#include <sys/mman.h>
#include <unistd.h>

/* The program's own code: requests from elsewhere are passed on. */
static char *first, *last;
static atomic_ulong no_count, *asked = &no_count;
static unsigned long refused;

static int find_program(struct dl_phdr_info *info, size_t size, void *none) {
  (void)size, (void)none;
  for (int i = 0; i < info->dlpi_phnum; i++)
    if (info->dlpi_phdr[i].p_type == PT_LOAD && (info->dlpi_phdr[i].p_flags & PF_X)) {
      first = (char *)info->dlpi_addr + info->dlpi_phdr[i].p_vaddr;
      last = first + info->dlpi_phdr[i].p_memsz;
    }
  return 1;
}

__attribute__((constructor)) static void begin(void) {
  dl_iterate_phdr(find_program, NULL);
  const char *number = getenv("REFUSE"), *name = getenv("REFUSE_COUNT");
  refused = number ? strtoul(number, NULL, 10) : 0;
  /* A file whose first word is the count, since the program may end without any last words. */
  int file = name ? open(name, O_RDWR | O_CREAT | O_TRUNC, 0600) : -1;
  if (file >= 0 && ftruncate(file, sizeof *asked) == 0) {
    void *words = mmap(NULL, sizeof *asked, PROT_READ | PROT_WRITE, MAP_SHARED, file, 0);
    if (words != MAP_FAILED) asked = words;
  }
}

static int refuses(void *from) {
  if ((char *)from < first || (char *)from >= last) return 0;
  if (atomic_fetch_add(asked, 1) + 1 != refused) return 0;
  errno = ENOMEM;
  return 1;
}

extern void *__libc_malloc(size_t), *__libc_calloc(size_t, size_t), *__libc_realloc(void *, size_t), *__libc_memalign(size_t, size_t);

void *malloc(size_t size) { return refuses(__builtin_return_address(0)) ? NULL : __libc_malloc(size); }
void *calloc(size_t count, size_t size) { return refuses(__builtin_return_address(0)) ? NULL : __libc_calloc(count, size); }
void *realloc(void *old, size_t size) { return refuses(__builtin_return_address(0)) ? NULL : __libc_realloc(old, size); }
void *aligned_alloc(size_t align, size_t size) { return refuses(__builtin_return_address(0)) ? NULL : __libc_memalign(align, size); }
int posix_memalign(void **into, size_t align, size_t size) {
  if (refuses(__builtin_return_address(0))) return ENOMEM;
  *into = __libc_memalign(align, size);
  return *into ? 0 : ENOMEM;
}
END
cc -O1 -shared -fPIC -o refuse.so refuse.c || exit 1

printf 'load a.sdf\nsettle\nsearch co.mol\nsettle\nwithdraw 1\nwithdraw 1\nwithdraw 0\nwithdraw 3\nsettle\nsearch co.mol\n' >s.txt
for _ in 1 2 3 4; do printf 'load a.sdf\nsearch co.mol\n'; done >many.txt
failed=0

# Whether an output at status 6 is the line, after a front of the right text, of whole lines.
is_front() {
  local right=$1 found=$2 size
  [ "$(tail -n 1 "$found")" = 'stop 6 memory' ] || return 1
  size=$(($(stat -c %s "$found") - 14))
  [ -n "${any_front-}" ] || head -c "$size" "$found" | cmp -s - <(head -c "$size" "$right")
}

# Each request of a command is refused in turn.
refuse_each() {
  local number=0 count memory=0 right=0 status wanted
  REFUSE_COUNT=count.txt LD_PRELOAD=./refuse.so "$HTSS" "$@" >right.txt
  wanted=$?
  count=$(od -A n -t u8 count.txt | tr -d ' ')
  while [ "$number" -lt "$count" ]; do
    number=$((number + 1))
    REFUSE=$number LD_PRELOAD=./refuse.so timeout 60 "$HTSS" "$@" >found.txt 2>err.txt
    status=$?
    if [ "$status" -eq 6 ] && [ ! -s err.txt ] && is_front right.txt found.txt; then
      memory=$((memory + 1))
    elif [ "$status" -eq "$wanted" ] && [ ! -s err.txt ] && { [ -n "${any_front-}" ] || cmp -s right.txt found.txt; }; then
      right=$((right + 1))
    else
      printf 'request %d of %s: status %d, %s\n' "$number" "$*" "$status" "$(tail -n 1 found.txt err.txt | tr '\n' ' ')"
      failed=1
    fi
  done
  printf '%5d requests: %5d times status 6, %5d times the right answer: %s\n' "$count" "$memory" "$right" "$*"
}

any_front=
small='--pages 16 --room 100 --log 8'
refuse_each find a.sdf co.mol
refuse_each check a.sdf
refuse_each codes co.mol
refuse_each make 3 7
refuse_each make 3 7 --summary
refuse_each find a.sdf
# the words of an option stand apart
# shellcheck disable=SC2086
refuse_each run s.txt --loaders 1 --searchers 1 $small --budget 100
# Loads and searches beside each other end in another order each time, so the text may be another one, of the same commands.
any_front=1
refuse_each run many.txt --loaders 4 --searchers 4 --pages 64 --room 100 --log 16
echo 'one number on a build with checks: cd crates/htss_main && rt try --fail-alloc N --data a.sdf=data/a.sdf -- check a.sdf'
exit $failed
