#!/usr/bin/env bash
# Tests the board on a terminal of 80 columns and 24 lines: each frame takes the place of the one before, on the screen
# and in what can be scrolled back to; the end of a long board is in sight; and no plan stays when the board closes.
#   terminal.sh PROGRAM [EMULATOR ..]
set -euo pipefail
cd "$(dirname "$0")/.."
words=("${@:2}" "$1")
room=$(mktemp -d)
tmux=(tmux -L "board$$" -f "$room/conf")
trap '"${tmux[@]}" kill-server 2> "$room/ignored" || true; rm -rf "$room"' EXIT

fail() {
  cat "$room/seen" >&2
  echo "the board on a terminal: $1" >&2
  exit 1
}

printf 'set -g status off\nset -g history-limit 5000\nset -g default-shell /bin/sh\nset -g exit-empty off\n' > \
  "$room/conf"
if ! "${tmux[@]}" new-session -d 'sleep 1000' 2> "$room/ignored"; then
  echo 'the board on a terminal was not tried: tmux cannot open one'
  exit 0
fi
"${tmux[@]}" kill-session

# All that the terminal holds, also what was scrolled off.
look() {
  "${tmux[@]}" capture-pane -p -S - > "$room/all"
  sed -e 's/ *$//' "$room/all" | sed -e ':a' -e '/^\n*$/{$d;N;ba' -e '}' > "$room/seen"
}

# wait_until REASON CONDITION ..: looks until the condition holds, or the board has ended or was stopped. A quarter of an
# hour stands for never.
wait_until() {
  local reason=$1
  shift
  for _ in $(seq 9000); do
    look
    ! "$@" || return 0
    ! shows_line '^status ' || break
    sleep 0.1
  done
  fail "$reason"
}

# The board has answered a command, and its prompt stands below the answer.
has_answered() {
  [ "$(tail -n 3 "$room/seen" | sed 2d)" = "$(printf 'command   %s\n>' "$1")" ]
}

shows_line() {
  grep -q "$1" "$room/seen"
}

shows_answers() {
  [ "$(grep -c '^answer ' "$room/seen")" = "$1" ]
}

# The N-th frame of a file of frames with the prompt behind it.
frame_of() {
  awk -v n="$2" 'NR == 1 { title = $0 } $0 == title { at++ } at == n { print }' "$1" |
    sed -e '$d' -e 's/ *$//' > "$room/frame"
  echo '>' >> "$room/frame"
}

# Once a command is answered, the terminal holds the frame and nothing else.
holds_frame() {
  wait_until "no answer to '$1'" has_answered "$1"
  cmp -s "$room/seen" "$room/frame" || fail "the frame after '$1' differs"
}

# Opens a board as a shell with job control does, so that Ctrl-Z has its meaning; its status stays below it.
open_board() {
  "${tmux[@]}" new-session -d -x 80 -y 24 "$(printf '%q ' bash --norc -c \
    'set -m; "$@"; echo "status $?"; sleep 1000' - "$@")"
}

type_line() {
  "${tmux[@]}" send-keys -l "$1"
  "${tmux[@]}" send-keys Enter
}

frames=tests/display/line_64.reports.out
open_board "${words[@]}" board samples/line_64.sheet
frame_of "$frames" 1
holds_frame plan
at=1
while read -r command; do
  type_line "$command"
  at=$((at + 1))
  frame_of "$frames" "$at"
  holds_frame "$command"
done < tests/display/line_64.reports.in

# In sight are the last trains, the titles again, the total and the answer.
"${tmux[@]}" capture-pane -p > "$room/seen"
[ "$(wc -l < "$room/seen")" = 24 ] || fail 'the screen has not 24 lines'
for begin in '   64 ' 'train ' 'total ' 'answer '; do
  shows_line "^$begin" || fail 'the end of a long board is out of sight'
done

# Ctrl-Z does not stop the board, and takes nothing away that was typed before.
type_line 'plan'
"${tmux[@]}" send-keys C-z
wait_until 'Ctrl-Z stops the board, or takes a command away' shows_line '^command   plan$'
type_line '65 3'
wait_until 'the board goes on no more after Ctrl-Z' shows_line '^command   65 3$'
type_line 'plan'
wait_until 'there is no plan to take away' shows_line '^command   plan$'

# Ctrl-C closes it.
"${tmux[@]}" send-keys C-c
wait_until 'Ctrl-C does not close it' shows_line '^status 1$'
shows_line '^closed by a signal; no plan is shown$' || fail 'no closing frame'
! shows_line 'keep\|go \|total\|>' || fail 'a plan stays when the board is closed'
"${tmux[@]}" kill-session

# On a terminal that cannot clear, frames follow each other.
open_board env TERM=dumb "${words[@]}" board samples/B.sheet
wait_until 'no first frame where the terminal cannot clear' shows_answers 1
type_line '1 5'
wait_until 'frames do not follow each other where the terminal cannot clear' shows_answers 2
type_line 'quit'
wait_until 'quit does not close it' shows_line '^status 0$'
echo "the board keeps to its screen on a terminal: $at frames of 64 trains, and the end"
