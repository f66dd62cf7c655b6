#!/usr/bin/env bash
# Prints what runs cost: for each number of made transactions the steps, the instructions (callgrind),
# the instructions a step, and the greatest memory; then the same of inputs of a megabyte, where an
# octet takes the place of a step. Needs valgrind and time.
# Words: the built program, then numbers of transactions; without words the program of this repository,
# built by `txn_program --prove run`, and 1000 2000 5000 10000 20000.
top=$(cd "$(dirname "$(readlink -f "$0")")/.." && pwd) || exit 1
if [ $# -gt 0 ]; then
  program=$(readlink -f "$1") || exit 1
  shift
else
  program=$("$top/txn_program" --which run) || exit 1
fi
[ $# -gt 0 ] || set -- 1000 2000 5000 10000 20000
work=$(mktemp -d) || exit 1
trap 'rm -r "$work"' EXIT

# The row of a run over the file `input`, after its name and how many steps or octets it has.
row() {
  local name=$1 count=$2 instructions memory
  shift 2
  valgrind --tool=callgrind --callgrind-out-file=/dev/null "$program" "$@" <"$work/input" \
    >/dev/null 2>"$work/told"
  instructions=$(sed -n 's/.*refs: *//p' "$work/told" | tr -d ,)
  command time -f %M -o "$work/told" "$program" "$@" <"$work/input" >/dev/null
  memory=$(tail -n 1 "$work/told")
  echo "| $name | $count | $instructions | $((instructions / count)) | $memory |"
}

: >"$work/input"
echo "| transactions | steps | instructions | a step | KiB |"
echo "|---|---|---|---|---|"
for count in "$@"; do
  steps=$("$program" make "$count" | sed -n 's/^steps //p')
  row "$count" "$steps" make "$count"
done
echo
echo "| input | octets | instructions | an octet | KiB |"
echo "|---|---|---|---|---|"
head -c 1048576 /dev/zero >"$work/input"
row "one line, no step" 1048576 run 00000000000000000000000000000001
yes 'flow -' | head -c 1048572 >"$work/input"
row "\`flow -\` lines" 1048572 run 00000000000000000000000000000001
{ echo 'transfer 4 - - '"$(head -c 524280 /dev/zero | tr '\0' 0)"; } >"$work/input"
row "one transfer" "$(wc -c <"$work/input")" run 00000000000000000000000000000001
