#!/usr/bin/env bash
# The places in src/ where an older form stands, point by point as docs/DESIGN-PASS.md has them: a line each, with point,
# file, line number and text. With a commit, the places of that commit; else those of the tree as it stands.
set -euo pipefail
cd "$(dirname "$0")/.."
at=${1:-}

# Lines of code, not comments, that a pattern finds.
find_in() {
  local point=$1 pattern=$2 path=${3:-'crates/*/src/*.rt'}
  if [[ $at ]]; then
    git grep -nE "$pattern" "$at" -- "$path" | sed "s/^[^:]*://"
  else
    git grep -nE "$pattern" -- "$path"
  fi | grep -vE '^[^:]*:[0-9]*: *//' | sed "s/^/$point: /" || true
}

# 1: own enums of the shape of Option or Result, and what is done with them by hand; numbers for kinds; flags.
find_in 1a '^(pub )?enum (Verdict|Answer|Reading)\b'
find_in 1b '(Verdict|Answer|Reading)::(Fine|Refused|Accepted)'
find_in 1c '^(pub )?const (NAME|SUMS|LISTS|RUN_SUMS|RUN_LISTS|CELL|PLAN|REPORT|READ|WRITE|KEEP|GO|BLANK): u(8|32) = '
find_in 1d 'kind: u32|fn byte.*-> io::Result<u32>|decision: u8|fn (prefer|choose).*-> u8'
find_in 1e '[a-z]+: bool|-> io::Result<bool>'
# 2: functions that differ in a type, a size or a constant.
find_in 2a 'fn (fill_u8|fill_u32|bytes|numbers|longs|wide|wide_byte|short|long|index|run|record)\b'
find_in 2b 'fn (excess_on|keep_on|go_on|set_slack|set_source|set_period|departures|driving|delays|store_three|store_four)\b'
find_in 2c '    pub fn (number|place)\(self\)|fn tell_(reading|answer)\b'
find_in 2d 'fn (oblachura|call)_(read|write|plan|report)\b'
find_in 2e 'fn main\b' 'crates/*_*/src/main.rt'
# 3: loops that count by hand.
find_in 3 '\bwhile\b'
# 4: printing and conversion by hand.
find_in 4a 'say::|fn (letter|half|differs)\b|^pub fn (word|number|next|end)<W'
find_in 4b '\bas u64\b|% 256'
# 5: facts in clauses, and parameters that travel together.
find_in 5a 'length (timing|sums|costs|boarding|diagonal)[.a-z]* ≡|Lengths 64 2080|FieldsGiven|BookGiven|Boarders'
find_in 5b 'length cells[.a-z]* ≡|SumsGiven|station.0 ≤ 64|\(?m ≤ 64'
find_in 5c '^    passengers: &|[(] ?cells: &mut \[u64\], decisions|^    decisions: &mut|^    timing: &|timing: &[^,]*, sums: &|period: u32[,)]'
# 6: columns packed into one list, and lists of a fixed length that are lent as slices.
find_in 6 'const (SOURCES|PERIODS|KEEPS|GOES|TIMING|COSTS)\b|(timing|costs|sums|boarding|diagonal): &(mut )?\[u(32|64)\][,)]'
# 7: a switch by a number on what to do.
find_in 7 'if kind == '
