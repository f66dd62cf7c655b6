#!/usr/bin/env bash
# Runs each example through the program, and compares what it writes and the status that it ends with.
# The one word, if any, is another program to run in place of txn_program, whose words must all be
# built; or it is --unproved, and the examples run through the sources as they are, which are compiled
# once for each main.
top=$(cd "$(dirname "$(readlink -f "$0")")/.." && pwd) || exit 1
program=${1:-$top/txn_program}
if [ $# -eq 0 ]; then
  for word in run listen agree threads broker relay mailbox audit; do
    "$program" --which "$word" >/dev/null || exit 1
  done
fi
failed=0
count=0

# The text of a file, or another where there is no such file; a last line says that it is over.
text_of() {
  if [ -f "$1" ]; then cat "$1"; else printf '%s' "$2"; fi
  echo over
}

# Compares what was written, and the status in a last line, with what is wanted.
compare() {
  count=$((count + 1))
  if [ "$2" = "$3" ]; then
    echo "right: $1"
  else
    failed=$((failed + 1))
    echo "WRONG: $1"
    diff <(printf '%s\n' "$3") <(printf '%s\n' "$2")
  fi
}

# Runs the examples of one main unproved: those whose first word it serves.
run_unproved() {
  local main=$1 which=$2 folder words example name line
  folder=$(mktemp -d) || exit 1
  trap 'rm -rf "$folder"' EXIT
  for words in "$top"/examples/*.words; do
    example=${words%.words}
    name=${example##*/}
    line=$(head -n 1 "$words")
    case $line in listen | agree | threads | broker | relay | mailbox | audit) ;; *) line=run ;; esac
    [ $line = "$which" ] || continue
    cp "$example.steps" "$folder/$name"
    cp "$words" "$folder/$name.args"
    text_of "$example.report" "" | head -n -1 >"$folder/$name.stdout"
  done
  (cd "$top/crates/$main" && rt try --seconds 600 --cases "$folder") </dev/null >"$folder/.told" 2>&1
  grep -q '^case=' "$folder/.told" || tail -n 20 "$folder/.told"
  for words in "$folder"/*.args; do
    name=${words##*/}
    name=${name%.args}
    wanted=$(cat "$top/examples/$name.status" 2>/dev/null || echo 0)
    line=$(grep -F "case=$name " "$folder/.told" | grep -o 'status=[0-9]*\|output=[a-z]*' | sort | tr '\n' ' ')
    compare "$name, unproved" "$line" "output=expected status=$wanted "
  done
  rm -r "$folder"
}

if [ "$program" = --unproved ]; then
  run_unproved txn_main run
  run_unproved txn_main_listen listen
  run_unproved txn_main_broker broker
  run_unproved txn_main_relay relay
  run_unproved txn_main_mailbox mailbox
  run_unproved txn_main_audit audit
  run_unproved txn_main_agree agree
  run_unproved txn_main_threads threads
  echo "$count runs, $failed of them wrong"
  [ "$failed" -eq 0 ]
  exit
fi

for words in "$top"/examples/*.words; do
  example=${words%.words}
  mapfile -t word <"$words"
  wanted=$(text_of "$example.report" ""; text_of "$example.status" $'0\n')
  got=$("$program" "${word[@]}" <"$example.steps"; printf 'over\n%d\nover' $?)
  compare "${example##*/}" "$got" "$wanted"
done

# The two commits of `interleaved` make the call 1, and the calls 2 and 3. Each of the three refused
# or starved: how many lines are answered as without it, and what then comes.
mapfile -t ids < <(tail -n +2 "$top/examples/interleaved.words")
planned() {
  local wanted got
  wanted=$(head -n "$3" "$top/examples/interleaved.report"; printf "$5over\n%d\nover" "$4")
  got=$("$program" run "$1" "$2" "${ids[@]}" <"$top/examples/interleaved.steps"
    printf 'over\n%d\nover' $?)
  compare "interleaved $1 $2" "$got" "$wanted"
}
veto='rejected rollback\n'
ended='stop done\nhanded 0\n'
want='stop below-no-memory\nhanded'
first='taken transfer 1 2 true - 51\n'
planned --refuse 1 6 0 "$veto$veto$ended"
planned --refuse 2 7 0 "$veto$ended$first"
planned --refuse 3 7 0 "$veto$ended$first"
planned --starve 1 6 8 "$want 0\n"
planned --starve 2 7 8 "$want 0\n$first"
planned --starve 3 7 8 "$want 1\n${first}taken transfer 1 1 true - 50\n"

# The stored run of each main is one of them; what has no file there is empty.
for stored in txn_main:interleaved txn_main_listen:listen-late-post \
  txn_main_broker:broker-commit txn_main_relay:relay-once txn_main_mailbox:mailbox-commit \
  txn_main_audit:audit txn_main_agree:agree-commit txn_main_threads:threads; do
  for pair in stdin:steps args:words stdout:report status:status; do
    kept=$top/crates/${stored%:*}/${pair%:*}
    [ -e "$kept" ] || kept=/dev/null
    example=$top/examples/${stored#*:}.${pair#*:}
    [ ! -e "$example" ] || cmp "$kept" "$example" || failed=$((failed + 1))
  done
done

echo "$count runs, $failed of them wrong"
[ "$failed" -eq 0 ]
