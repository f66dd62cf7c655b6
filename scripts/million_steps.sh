#!/usr/bin/env bash
# 1,000,000 steps through the Rust crate, beside the program over the same steps: 200,000
# transactions of five steps (examples/many_steps.rs). The program reads at most 1 MiB at once, so
# it makes 80 runs of 2,500 transactions each: it reads their lines, drives them and writes their
# report. What 80 runs over no transaction take is told too.
#   scripts/million_steps.sh [PROGRAM]
# PROGRAM is the built program of `run`; else it is that of `./txn_program --which run`. The archive
# is that of scripts/bindings.sh.
set -euo pipefail
top=$(cd "$(dirname "$(readlink -f "$0")")/.." && pwd)
program=${1:-$("$top/txn_program" --which run)}
id=00000000000000000000000000000001
runs=80 transactions=2500
made=$(mktemp -d)
trap 'rm -rf "$made"' EXIT

export CARGO_TARGET_DIR=${CARGO_TARGET_DIR:-$top/bindings/rust/target}
(cd "$top/bindings/rust" && cargo build --offline --quiet --release --example many_steps)
many_steps=$CARGO_TARGET_DIR/release/examples/many_steps

# The wall time and the processor's of the program over the inputs whose names begin so.
time_program() {
  local input
  TIMEFORMAT="$2: %R s (user %U s, system %S s)"
  time for input in "$made/$1".*; do
    "$program" run $id <"$input" >"$made/report"
  done
}

for ((run = 0; run < runs; run++)); do
  "$many_steps" $transactions lines $((run * transactions)) >"$made/steps.$run"
  echo 'attach c 0' >"$made/start.$run"
done
echo "lines: $(cat "$made"/steps.* | wc -l), $(cat "$made"/steps.* | wc -c) octets"

for round in 1 2 3; do
  time_program start "$runs runs of the program over no transaction"
  time_program steps "$runs runs of the program over the steps"
  TIMEFORMAT="through Rust: %R s (user %U s, system %S s)"
  time "$many_steps" $((runs * transactions))
done
