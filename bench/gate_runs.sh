#!/usr/bin/env bash
# Runs each test of the shared clip a hundred times on two processors, and then a hundred times on four, and stops at the first
# that fails. `rt test` in crates/clip_gate_trials builds them.
set -eu
top=$(cd "$(dirname "${BASH_SOURCE[0]}")/.." && pwd)
tests=$top/crates/clip_gate_trials/out/clip_gate_trials_tests
names=$("$tests" --list | sed -n 's/: test$//p')

for processors in 0,1 0-3; do
  for run in $(seq "${RUNS:-100}"); do
    for name in $names; do
      taskset -c "$processors" "$tests" "$name" >/dev/null 2>&1 ||
        { echo "$name failed on processors $processors in run $run"; exit 1; }
    done
  done
  echo "${RUNS:-100} runs of each test passed on processors $processors"
done
