#!/usr/bin/env bash
# Tests the display: its frames, sheets as text, what it refuses, wrong calls and ends.
#   display.sh PROGRAM REFUSING [EMULATOR ..]
# REFUSING is the same program with tests/display/refusing/refusing.c before the archive.
set -euo pipefail
shopt -s nullglob
program=$1
refusing=$2
shift 2
emulator=("$@")
cd "$(dirname "$0")/.."
room=$(mktemp -d)
trap 'rm -rf "$room"' EXIT

fail() {
  echo "the display: $1" >&2
  exit 1
}

# Runs the display; what it prints goes to two files, its status to `status`.
desk() {
  status=0
  "${emulator[@]}" "$program" "$@" > "$room/out" 2> "$room/err" || status=$?
}

ends_with() {
  [ "$status" = "$1" ] || fail "status $status, not $1: $2"
}

# How often to look for what has to come, ten times a second: a quarter of an hour stands for never.
looks=9000

# Waits until the output of a board in the background holds a text.
wait_for() {
  for _ in $(seq "$looks"); do
    ! grep -q "$1" "$room/out" || return 0
    kill -0 "$2" 2> "$room/ignored" || fail "the board ended before '$1' came"
    sleep 0.1
  done
  fail "'$1' did not come"
}

# Sends a signal to a board in the background and waits for its end.
stop_board() {
  kill -s "$1" "$2"
  for _ in $(seq "$looks"); do
    kill -0 "$2" 2> "$room/ignored" || break
    sleep 0.1
  done
  ! kill -s KILL "$2" 2> "$room/ignored" || fail "signal $1 does not end the board"
  status=0
  wait "$2" || status=$?
}

# ---- frames: tests/display/SAMPLE.NAME.in, '__' standing for '/' ----
frames=(tests/display/*.in)
[ "${#frames[@]}" -gt 0 ] || fail 'tests/display has no frames'
for commands in "${frames[@]}"; do
  name=$(basename "$commands" .in)
  sample=${name%%.*}
  desk board "samples/${sample//__//}.sheet" < "$commands"
  diff "$room/out" "${commands%.in}.out" >&2 || fail "$commands shows something else"
  [ ! -s "$room/err" ] || fail "$commands: something on standard error"
  if grep -q '^closed by quit' "$room/out"; then ends_with 0 "$commands"; else ends_with 1 "$commands"; fi
done

# a refusal that leaves an older plan in the buffers shows none of it
"${emulator[@]}" "$refusing" board samples/B.sheet < tests/display/refusing/B.in > "$room/out" ||
  fail 'the archive that refuses: a status other than 0'
diff "$room/out" tests/display/refusing/B.out >&2 || fail 'something is shown of what a refusal left'

# ---- sheets as text ----
texts=(samples/*.txt)
[ "${#texts[@]}" -gt 0 ] || fail 'samples has no texts'
for text in "${texts[@]}"; do
  sheet=${text%.txt}.sheet
  desk pack "$text"
  cmp "$room/out" "$sheet" || fail "pack of $text"
  desk unpack "$sheet"
  cmp "$room/out" "$text" || fail "unpack of $sheet"
done

# unpack, then pack, is the identity, on every sheet that the plan program must accept
same=0
for sheet in samples/*.sheet tests/program/*.sheet; do
  ! grep -qs '^refused' "${sheet%.sheet}.out" || continue
  desk unpack < "$sheet"
  ends_with 0 "unpack of $sheet"
  cp "$room/out" "$room/text"
  desk pack < "$room/text"
  cmp "$room/out" "$sheet" || fail "unpack and pack of $sheet"
  same=$((same + 1))
done
[ "$same" -ge 10 ] || fail "only $same sheets to unpack"

# ---- refusals: one line, status 1, no output ----
refuse() {
  desk "$1" "$2"
  ends_with 1 "$1 $2"
  [ ! -s "$room/out" ] || fail "$1 of $2 is refused and has output"
  sed "s,^desk $1: $2: ,$1 ${2#*/}: ," "$room/err"
}
{
  for text in samples/damaged/*.txt; do refuse pack "$text"; done
  for sheet in samples/damaged/*.sheet; do refuse unpack "$sheet"; done
  cd tests
  for text in display/texts/*.txt; do refuse pack "$text"; done
  cd ..
} > "$room/refusals"
diff "$room/refusals" tests/display/refusals.out >&2 || fail 'a refusal reads otherwise'

# ---- calls and ends ----
desk help
ends_with 0 help
grep -q '^desk board SHEET' "$room/out" || fail 'help does not tell of the board'
for call in '' 'board' 'board a b' 'pack a b' 'unpack a b' 'help me' 'plan' '--help'; do
  # shellcheck disable=SC2086
  desk $call
  ends_with 2 "desk $call"
  [ ! -s "$room/out" ] && [ "$(wc -l < "$room/err")" = 1 ] || fail "a wrong call gets one line: desk $call"
  grep -q '^usage: desk ' "$room/err" || fail "no usage for desk $call"
done
for command in board pack unpack; do
  for name in no_such_file samples; do
    desk "$command" "$name"
    ends_with 1 "$command of $name"
    [ ! -s "$room/out" ] && [ "$(wc -l < "$room/err")" = 1 ] || fail "$command of $name gets one line"
    grep -q "^desk $command: $name: " "$room/err" || fail "$command does not name $name"
  done
done
head -c 1048577 /dev/zero | tr '\0' ' ' > "$room/long"
desk pack "$room/long"
ends_with 1 'a text of over 1 MiB'
grep -q 'over 1048576 bytes' "$room/err" || fail 'a text of over 1 MiB is refused otherwise'
if [ -c /dev/full ]; then
  for call in 'board samples/B.sheet' 'pack samples/B.txt' 'unpack samples/B.sheet' 'help'; do
    status=0
    # shellcheck disable=SC2086
    "${emulator[@]}" "$program" $call < /dev/null > /dev/full 2> "$room/err" || status=$?
    ends_with 1 "desk $call, on a full device"
    grep -q 'standard output: ' "$room/err" || fail "desk $call does not tell that it cannot write"
  done
fi

# a text of just 1 MiB is read
head -c $((1048576 - $(wc -c < samples/B.txt))) /dev/zero | tr '\0' ' ' > "$room/blanks"
cat samples/B.txt "$room/blanks" > "$room/long"
desk pack "$room/long"
cmp "$room/out" samples/B.sheet || fail 'a text of 1 MiB is not read'

# an output that nobody reads any more
{ yes plan || true; } 2> "$room/ignored" |
  { "${emulator[@]}" "$program" board samples/B.sheet 2> "$room/err" || echo $? > "$room/status"; } | true
[ "$(cat "$room/status")" = 1 ] && grep -q 'standard output: ' "$room/err" || fail 'a closed pipe is not told'

# ---- how a board ends: no plan stays ----
closes() {
  ends_with 1 "$1"
  [ "$(tail -n 3 "$room/out")" = "$(printf 'samples/B.sheet\n%s; no plan is shown\n' "$2")" ] ||
    fail "$1: no closing frame"
}
desk board samples/B.sheet <&-
closes 'no standard input' 'closed, the input cannot be read'
desk board samples/B.sheet < samples
closes 'a folder as input' 'closed, the input cannot be read'
desk board samples/B.sheet <<< 'x'
closes 'end of input' 'closed, the input ended without quit'
printf 'quit' > "$room/cut"
desk board samples/B.sheet < "$room/cut"
closes 'quit without its end' 'closed, the input ended without quit'

# Starts a board on an input that stays open, waits for its first frame and stops it.
signal_board() {
  rm -f "$room/in"
  mkfifo "$room/in"
  : > "$room/out"
  # a shell has its jobs in the background ignore INT and QUIT; env undoes that
  env --default-signal=INT,QUIT "${emulator[@]}" "$program" board samples/B.sheet < "$room/in" > "$room/out" &
  exec 3> "$room/in"
  wait_for accepted $!
  stop_board "$1" $!
  exec 3>&-
}
for signal in TERM INT HUP QUIT USR1; do
  signal_board "$signal"
  closes "signal $signal" 'closed by a signal'
done

# also while commands come without end
: > "$room/out"
{ yes '1 5' || true; } 2> "$room/ignored" |
  "${emulator[@]}" "$program" board samples/B.sheet > "$room/out" &
wait_for accepted $!
stop_board TERM $!
tail -n 2 "$room/out" | grep -q '^closed by a signal' || fail 'no end while commands come'

# ---- what is typed may come in pieces ----
{ for byte in 1 ' ' 5 '\n' pl an '\n' q uit '\n'; do printf '%b' "$byte"; sleep 0.02; done; } |
  "${emulator[@]}" "$program" board samples/B.sheet > "$room/out" || fail 'commands in pieces'
[ "$(grep -c '^answer    accepted$' "$room/out")" = 3 ] || fail 'commands in pieces are not those'

# ---- a name cannot command the terminal, nor be wider than it ----
name=$(printf 'a\033[2J%0100d' 0)
cp samples/B.sheet "$room/$name"
(cd "$room" && echo quit | "${emulator[@]}" "$program" board "$name" > out)
head -n 1 "$room/out" | grep -qE '^a\?\[2J0{73}\.\.$' || fail 'the name of a sheet is shown as it is'

echo "the display shows what it must: ${#frames[@]} boards, $same sheets as text and back," \
  "$(wc -l < tests/display/refusals.out) refusals"
