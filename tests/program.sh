#!/usr/bin/env bash
# Runs the plan program on every sheet of tests/program and compares what it prints.
#   program.sh PROGRAM [EMULATOR ..]
set -euo pipefail
shopt -s nullglob
program=$1
shift
cd "$(dirname "$0")/program"
sheets=(*.sheet)
[ "${#sheets[@]}" -gt 0 ] || { echo 'tests/program has no sheet' >&2; exit 1; }
for sheet in "${sheets[@]}"; do
  "$@" "$program" < "$sheet" | cmp - "${sheet%.sheet}.out" || {
    echo "the plan program prints something else for tests/program/$sheet" >&2
    exit 1
  }
done
echo "the plan program prints what it must for ${#sheets[@]} sheets"
