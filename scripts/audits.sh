#!/usr/bin/env bash
# Shows that the reports of this repository fit: each example of run and listen, the rows of a plan,
# and made runs of growing size, up to the 4 MiB that an audit reads, each by an audit of its steps,
# its ids and its report; that changed reports don't; and that a made report is the one that a run
# writes, where a run reads its steps. With the word --cost it prints instead what audits of a run cost,
# beside the run: instructions (callgrind), instructions an octet, and the greatest memory. Needs built
# programs: ./txn_program --prove. The cost needs valgrind and time.
top=$(cd "$(dirname "$(readlink -f "$0")")/.." && pwd) || exit 1
run=$("$top/txn_program" --which run) || exit 1
audit=$("$top/txn_program" --which audit) || exit 1
work=$(mktemp -d) || exit 1
trap 'rm -r "$work"' EXIT
failed=0
count=0
one=00000000000000000000000000000001
two=00000000000000000000000000000002

# Audits the steps and the report of the named files with the ids, and compares status and text with
# what is wanted.
judge() {
  local name=$1 wanted=$2 steps=$3 report=$4 got status
  shift 4
  count=$((count + 1))
  got=$({ cat "$steps"; echo report; cat "$report"; } | "$audit" audit "$@" 2>"$work/why")
  status=$?
  if [ "$got $status" = "$wanted" ]; then
    echo "right: $name${got:+, $got} $(cat "$work/why")"
  else
    failed=$((failed + 1))
    echo "WRONG: $name: $got $status, wanted $wanted: $(cat "$work/why")"
  fi
}

# The ids of the words of a run: those after its command and its plans; for a seed those of the report,
# as each is drawn once.
ids_of() {
  awk -v report="$2" '
    NR == 1 { next }
    /^--seed$/ { while ((getline line < report) > 0) if (sub(/^declared /, "", line)) print line; exit }
    /^--/ { skip = 1; next }
    skip { skip = 0; next }
    { print }' "$1"
}

examples() {
  local words example status ids
  for words in "$top"/examples/*.words; do
    example=${words%.words}
    case $(head -n 1 "$words") in run | listen) ;; *) continue ;; esac
    status=$(cat "$example.status" 2>/dev/null || echo 0)
    case $status in 0 | 1 | 8) ;; *) continue ;; esac
    mapfile -t ids < <(ids_of "$words" "$example.report")
    [ "${#ids[@]}" -gt 0 ] || ids=("$one")
    judge "${example##*/}" "yes 0" "$example.steps" "$example.report" "${ids[@]}"
  done
}

# The row of the text, and what doesn't fit of it: a frame handed of no step, a taken frame left out,
# another id drawn, a line of no form.
rows() {
  local steps=$top/examples/one-commit.steps report=$top/examples/one-commit.report
  sed 's/^handed 0$/handed 1/' "$report" >"$work/handed"
  grep -v '^taken ' "$report" >"$work/untaken"
  { cat "$report"; echo; } >"$work/more"
  judge "one-commit, handed 1" "no 1" "$steps" "$work/handed" "$one"
  judge "one-commit, no taken line" "no 1" "$steps" "$work/untaken" "$one"
  judge "one-commit, another id" "no 1" "$steps" "$report" "$two"
  judge "one-commit, an empty line more" "no 1" "$steps" "$work/more" "$one"
  judge "no report" "no 1" "$steps" /dev/null "$one"
}

# Steps and the report of their run, both made here, which with the line between them have that many
# octets at most: transactions of three frames under one id, each committed, but each fourth rolled
# back.
make_input() {
  awk -v most="$1" -v id="$one" -v steps="$work/steps" -v report="$work/report" \
    -v taken="$work/taken" 'BEGIN {
    print "attach c 0" >steps
    print "attached 0" >report
    printf "" >taken
    ending = "stop done\nhanded 0\n"
    size = length("attach c 0\nreport\nattached 0\n" ending)
    declare = "control 0 00537700533145\n"
    front = "control 0 005377005332"
    for (turn = 0; ; turn++) {
      n = 2 * turn
      lines = declare
      lines = lines "post " id " 1 " n " - - 6869\n"
      lines = lines "post " id " 1 " n + 1 " true accepted 00\n"
      lines = lines "retire " id " sender " n " - true accepted\n"
      # a discharge: a list of the id, and of fail where it is true
      if (turn % 4 == 3) lines = lines front "c01402a010" id "41\n"
      else lines = lines front "c01301a010" id "\n"
      replies = "declared " id "\nok\n"
      replies = replies "out disposition receiver " n " - true txn:" id ":accepted\n"
      replies = replies "ok\nok\naccepted\n"
      frames = ""
      if (turn % 4 != 3) {
        frames = "taken transfer 1 " n " - - 6869\n"
        frames = frames "taken transfer 1 " n + 1 " true accepted 00\n"
        frames = frames "taken disposition sender " n " - true accepted\n"
      }
      size += length(lines replies frames)
      if (size > most) break
      printf "%s", lines >steps
      printf "%s", replies >report
      printf "%s", frames >taken
    }
    printf "%s", ending >report
  }'
  cat "$work/taken" >>"$work/report"
}

# The octets of an input of these steps and this report.
input_octets() {
  echo $(($(cat "$work/steps" "$work/report" | wc -c) + 7))
}

# The made report is the one that a run of the steps writes, where a run reads so many.
is_of_run() {
  [ "$(wc -c <"$work/steps")" -le 1048576 ] || return 0
  "$run" run "$one" <"$work/steps" | cmp -s - "$work/report" && return
  failed=$((failed + 1))
  echo "WRONG: a run writes another report than was made of $1 octets"
}

# Made inputs, up to the most octets that an audit reads: 4 MiB.
made() {
  local most
  for most in 1000 30000 262144 1048576 1926000 3145728 4194304; do
    make_input "$most"
    is_of_run "$most"
    judge "made of $(input_octets) octets, $(wc -l <"$work/steps") steps" "yes 0" "$work/steps" \
      "$work/report" "$one"
  done
  # The last line taken is another.
  sed '$s/$/0/' "$work/report" >"$work/changed"
  judge "made of $most octets, changed at its end" "no 1" "$work/steps" "$work/changed" "$one"
}

# The row of a program over a file.
row() {
  local name=$1 program=$2 input=$3 octets instructions memory
  shift 3
  octets=$(wc -c <"$input")
  valgrind --tool=callgrind --callgrind-out-file=/dev/null "$program" "$@" <"$input" \
    >/dev/null 2>"$work/told"
  instructions=$(sed -n 's/.*refs: *//p' "$work/told" | tr -d ,)
  command time -f %M -o "$work/told" "$program" "$@" <"$input" >/dev/null
  memory=$(tail -n 1 "$work/told")
  echo "| $name | $octets | $instructions | $((instructions / octets)) | $memory |"
}

# The costs: audits of growing size, and beside each the run of its steps, where a run reads so many.
costs() {
  local most
  echo "| call | octets | instructions | an octet | KiB |"
  echo "|---|---|---|---|---|"
  for most in 262144 1048576 1926000 4194304; do
    make_input "$most"
    { cat "$work/steps"; echo report; cat "$work/report"; } >"$work/input"
    if [ "$(wc -c <"$work/steps")" -le 1048576 ]; then
      row run "$run" "$work/steps" run "$one"
    fi
    row audit "$audit" "$work/input" audit "$one"
  done
}

if [ "$1" = --cost ]; then
  costs
  exit
fi
examples
rows
made
echo "$count audits, $failed of them wrong"
[ "$failed" -eq 0 ]
