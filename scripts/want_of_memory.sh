#!/usr/bin/env bash
# Makes each allocation of a run fail in turn, and counts how the runs end.
# Words: a file of step lines, and the words of the program, as in
#   scripts/want_of_memory.sh examples/one-commit.steps run 00000000000000000000000000000001
# With no words, all examples are run so, a line each, and then commits of which each frame in turn is
# refused or starved below, an input that is too long, and a folder as input.
# An allocation is a call of malloc or of realloc. A run may end as the one in which none fails; with
# status 6 and nothing written; with status 8 and the stop below-no-memory; or with a report in which an
# attach is refused as below-no-memory; make and threads, which write no report, with their summary and
# status 8, or with status 1 where an attach was refused. Any other end is a failure.
# Needs gcc, and the built programs (`txn_program --prove` builds them), or the one that PROGRAM names.
top=$(cd "$(dirname "$(readlink -f "$0")")/.." && pwd) || exit 1
[ $# -ne 1 ] || { echo "usage: want_of_memory.sh [FILE WORD..]" >&2; exit 2; }
work=$(mktemp -d) || exit 1
trap 'rm -r "$work"' EXIT

# An allocator whose call number FAIL_AT finds no memory. It counts its calls in the file COUNT_IN.
cat >"$work/failing.c" <<'END'
#define _GNU_SOURCE
#include <dlfcn.h>
#include <fcntl.h>
#include <stdlib.h>
#include <sys/mman.h>
#include <unistd.h>
static int fails(void) {
  static long *calls, failing;
  if (!calls) {
    int file = open(getenv("COUNT_IN"), O_RDWR);
    calls = mmap(NULL, sizeof *calls, PROT_READ | PROT_WRITE, MAP_SHARED, file, 0);
    close(file);
    failing = atol(getenv("FAIL_AT"));
  }
  return __atomic_add_fetch(calls, 1, __ATOMIC_SEQ_CST) == failing;
}
void *malloc(size_t size) {
  static void *(*next)(size_t);
  if (!next) next = (void *(*)(size_t))dlsym(RTLD_NEXT, "malloc");
  return fails() ? NULL : next(size);
}
void *realloc(void *old, size_t size) {
  static void *(*next)(void *, size_t);
  if (!next) next = (void *(*)(void *, size_t))dlsym(RTLD_NEXT, "realloc");
  return fails() ? NULL : next(old, size);
}
END
gcc -O1 -shared -fPIC -o "$work/failing.so" "$work/failing.c" -ldl || exit 1

# The text of the run in which that allocation fails, and its status.
run_with() {
  head -c 8 /dev/zero >"$work/count"
  COUNT_IN=$work/count FAIL_AT=$1 LD_PRELOAD=$work/failing.so "$program" "${words[@]}" <"$file" 2>/dev/null
  echo "status $?"
}

# Runs the program with those words over that file, with each of its allocations failing in turn;
# prints how often it ended how, and fails where it ended otherwise.
try_all() {
  local whole end kind total number program
  local -A count=([nothing]=0 [below]=0 [refused]=0 [summary]=0 [whole]=0 [other]=0)
  file=$1
  words=("${@:2}")
  program=${PROGRAM:-$("$top/txn_program" --which "$2")} || return 1
  whole=$(run_with 0)
  total=$(od -An -td8 "$work/count" | tr -d ' ')
  for ((number = 1; number <= total; number++)); do
    end=$(run_with "$number")
    case $end in
      "$whole") kind=whole ;;
      "status 6") kind=nothing ;;
      *"stop below-no-memory"*"status 8") kind=below ;;
      *"attach-refused below-no-memory"*) kind=refused ;;
      "steps "*"status "[18] | "workers "*"status "[18]) kind=summary ;;
      *) kind=other; printf 'allocation %s:\n%s\n' "$number" "$end" ;;
    esac
    count[$kind]=$((count[$kind] + 1))
  done
  echo "allocations $total: status 6 ${count[nothing]}, status 8 ${count[below]}," \
    "attach refused ${count[refused]}, summary ${count[summary]}, as without ${count[whole]}," \
    "another end ${count[other]}"
  [ "${count[other]}" -eq 0 ]
}

if [ $# -gt 0 ]; then
  try_all "$@"
  exit
fi
failed=0
for example in "$top"/examples/*.words; do
  mapfile -t word <"$example"
  printf '%s: ' "$(basename "$example" .words)"
  try_all "${example%.words}.steps" "${word[@]}" || failed=1
done
for plan in --refuse --starve; do
  for number in 1 2 3; do
    printf '%s: ' "vetoed-commit, $plan $number"
    try_all "$top/examples/vetoed-commit.steps" run "$plan" "$number" \
      00000000000000000000000000000001 || failed=1
  done
done
head -c 1048577 /dev/zero >"$work/long"
printf '%s: ' "an input that is too long"
try_all "$work/long" run 00000000000000000000000000000001 || failed=1
printf '%s: ' "a folder as input"
try_all "$top" run 00000000000000000000000000000001 || failed=1
exit "$failed"
