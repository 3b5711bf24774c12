#!/usr/bin/env bash
# Builds wrong versions of the display, one line of it changed in each, and shows that its tests find them.
#   display_wrong.sh ARCHIVE COMPILER_AND_FLAGS .. -- [EMULATOR ..]
set -euo pipefail
cd "$(dirname "$0")/.."
archive=$1
shift
compile=()
while [ "$1" != -- ]; do
  compile+=("$1")
  shift
done
shift
emulator=("$@")
room=$(mktemp -d)
trap 'rm -rf "$room"' EXIT
tried=0

for file in display/*.c tests/display/refusing/refusing.c; do
  "${compile[@]}" -c "$file" -o "$room/$(basename "$file" .c).o"
done
mv "$room/refusing.o" "$room/refusing"

# The text OLD, which stands once in a file, with NEW in its place.
change() {
  OLD=$1 NEW=$2 awk '{ at = index($0, ENVIRON["OLD"])
    if (at) $0 = substr($0, 1, at - 1) ENVIRON["NEW"] substr($0, at + length(ENVIRON["OLD"])); print }'
}

# Builds the display twice, with the archive and with one that refuses, and tests both. What the tests say goes to the
# log.
passes() {
  "${compile[@]}" "$room"/*.o "$archive" -o "$room/desk"
  "${compile[@]}" "$room"/*.o -Wl,--wrap=oblachura_report,--wrap=oblachura_plan "$room/refusing" "$archive" \
    -o "$room/desk_refusing"
  bash tests/display.sh "$room/desk" "$room/desk_refusing" "${emulator[@]}" > "$room/log" 2>&1 &&
    bash tests/terminal.sh "$room/desk" "${emulator[@]}" > "$room/log" 2>&1
}

# wrong SENTENCE WORDS FILE OLD NEW: a display in whose FILE.c the text OLD is NEW; a test has to say the words.
wrong() {
  local file=display/$3.c object=$room/$3.o
  [ "$(grep -cF -- "$4" "$file")" = 1 ] || {
    echo "'$4' does not stand once in $file" >&2
    exit 1
  }
  mv "$object" "$room/right"
  change "$4" "$5" < "$file" | "${compile[@]}" -Idisplay -x c -c - -o "$object"
  if passes; then
    echo "not found: $1" >&2
    exit 1
  fi
  mv "$room/right" "$object"
  tail -n 1 "$room/log" | grep -qF -- "$2" || {
    echo "found otherwise than by '$2': $1: $(tail -n 1 "$room/log")" >&2
    exit 1
  }
  printf '%-50s found: %s\n' "$1" "$(tail -n 1 "$room/log")"
  tried=$((tried + 1))
}

passes || {
  cat "$room/log" >&2
  exit 1
}
if grep -q 'was not tried' "$room/log"; then terminal=no; else terminal=yes; fi
wrong 'a refusal leaves the plan on the board' 'B.malformed.in shows something else' \
  board 'board->shown.planned = false;' '(void)board;'
wrong 'malformed text leaves the plan on the board' 'B.malformed.in shows something else' \
  board 'board->news.malformed++;' 'board->news.malformed++; board->shown.planned = true;'
wrong 'a refused report is shown like an accepted one' 'B.reports.in shows something else' \
  board 'number == OBLACHURA_ACCEPTED && sheet_read' 'sheet_read'
wrong '10 is shown like an accepted report' 'something is shown of what a refusal left' \
  board 'number == OBLACHURA_ACCEPTED && sheet_read' '(number == 0 || number == 10) && sheet_read'
wrong 'delays of an earlier report stand beside the plan' 'B.reports.in shows something else' \
  board 'shown->reported[i] = line' 'if (board->news.taken < 1) shown->reported[i] = line'
wrong 'a train under keep forgets the slack' 'shows something else' \
  board 'return feeder > slack ? feeder - slack : 0;' 'return feeder + 0 * slack;'
wrong 'the total stays when the plan goes' 'B.malformed.in shows something else' \
  frame '"total     no plan\n"' '"total     %u\n", (unsigned)shown->total'
wrong 'an empty line is passed over' 'B.malformed.in shows something else' \
  command 'return malformed("the line is empty");' 'return (struct command){.kind = COMMAND_PLAN};'
wrong 'a line that was cut off is taken' 'B.malformed.in shows something else' \
  desk 'if (next == INPUT_LINE)' 'if (next != INPUT_LONG)'
wrong 'the end of the input counts as quit' 'status 0, not 1' \
  desk 'return state == BOARD_QUIT ? 0 : 1;' 'return 0;'
wrong 'commands to the terminal are shown as they come' 'B.malformed.in shows something else' \
  words "text.bytes[i] >= ' ' && text" "text.bytes[i] >= '\\0' && text"
wrong 'numbers after the last are passed over' 'pack samples/damaged/4_long.txt' \
  listing 'return !next_full_line(source, &more)' 'return next_full_line(source, &more) || true'
if [ "$terminal" = yes ]; then
  wrong 'an older plan can be scrolled back to' "the frame after '64 0' differs" \
    output '\033[2J\033[3J' '\033[2J'
  wrong 'the last plan stays on the terminal' 'a plan stays when the board is closed' \
    output 'screen.clears ? CLEAR' 'screen.clears && !last ? CLEAR'
  wrong 'Ctrl-Z stops the board' 'Ctrl-Z' \
    input '{SIGTSTP, SIGTTIN, SIGTTOU}' '{SIGTTIN, SIGTTOU}'
fi
echo "$tried of $tried wrong displays found"
