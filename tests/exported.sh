#!/usr/bin/env bash
# Reads the source of the exported functions, those marked extern "C": each has an `ensures` and no `requires`, the
# header declares it, and the crate `caller` calls the library's function of its name; no function of `caller` has a
# `requires` either. C could not be held to a `requires`, and a proof that assumes one says nothing of a caller who does
# not keep it.
#   exported.sh            the crates and the header of this project
#   exported.sh --wrong    wrong sources, each of which has to be found, and two right ones
set -euo pipefail
cd "$(dirname "$0")/.."

# A source without its comments. One that could hide a clause from this reading is told by read_crates.
without_comments() {
  sed 's|//.*||' "$@"
}

# What is wrong with the exported functions of a source, a line each; and a line 'exported NAME' for each.
read_source() {
  without_comments "$1" | awk '
    { text = text $0 " " }
    END {
      while (match(text, /extern *"C" *fn +[A-Za-z_0-9]+/)) {
        name = substr(text, RSTART, RLENGTH)
        sub(/.* /, "", name)
        text = substr(text, RSTART + RLENGTH)
        asks = 0; promises = 0; body = 0
        # clauses have braces of their own: the body begins at the first brace that no clause opens
        while (!body && match(text, /{/)) {
          before = substr(text, 1, RSTART - 1)
          if (before ~ /requires *[*]?( *[A-Za-z_0-9]+)? *$/) asks = 1
          else if (before ~ /ensures *[*]?( *[A-Za-z_0-9]+)? *$/) promises = 1
          else if (before !~ /ghost +[A-Za-z_0-9]+ *: *$/) body = 1
          depth = 0
          for (i = RSTART; i <= length(text); i++) {
            sign = substr(text, i, 1)
            depth += (sign == "{") - (sign == "}")
            if (depth == 0) break
          }
          text = substr(text, i + 1)
        }
        if (asks) print name " has a requires"
        if (!promises) print name " has no ensures"
        # what was taken for the body may have been a clause in a form that is not known here
        if (text ~ /^ *({|requires|ensures)/) print name " has a clause that is not understood"
        print "exported " name
      }
    }'
}

# The sources below a folder; a crate's out/ holds copies of them.
sources() {
  find "$1" -name out -prune -o -path '*/src/*' -name '*.rt' -print | sort
}

# Whether a source has what could hide a clause from this reading: a comment within a line or a // in a text and, in one
# that exports, a comment of a clause's own kind or a brace in a text.
hides() {
  local in_text='^([^"]*"[^"]*")*[^"]*"[^"]*' found
  found=$(sed 's/\\.//g' "$1" | grep -E "/[*]|$in_text//" || true)
  [ -n "$found" ] || ! grep -q 'extern *"C"' "$1" ||
    found=$(without_comments "$1" | sed 's/\\.//g' | grep -E "[{]-|--|'[{}]'|$in_text[{}]" || true)
  [ -n "$found" ]
}

# The functions that a header declares, a line each.
declared() {
  sed -n 's/^uint32_t \(oblachura_[a-z_]*\)(.*/\1/p' "$1"
}

# What is wrong in a folder of crates beside a header: CRATES HEADER.
read_crates() {
  local source name calls room
  room=$(mktemp -d)
  calls=$(without_comments "$1"/caller/src/*.rt)
  ! grep -qw requires <<< "$calls" || echo 'caller has a requires'
  sources "$1" | while IFS= read -r source; do
    ! hides "$source" || echo "$source has text or a comment that may hide a clause"
    read_source "$source"
  done > "$room/read"
  sed -n 's/^exported //p' "$room/read" | sort > "$room/exported"
  grep -v '^exported ' "$room/read" || true
  while IFS= read -r name; do
    grep -q "[^A-Za-z_0-9]$name(" <<< "$calls" || echo "$name is not called"
  done < "$room/exported"
  declared "$2" | sort | comm -3 - "$room/exported" | tr -d '\t' | sed 's/$/ is not in both source and header/'
  rm -r "$room"
}

# ---- wrong sources

# What is found in one source, beside a caller and a header: SOURCE CALLER [FILE].
try_source() {
  local room file=${3:-lib.rt}
  room=$(mktemp -d)
  mkdir -p "$room/crates/caller/src" "$(dirname "$room/crates/one/src/$file")"
  printf '%s\n' "$1" > "$room/crates/one/src/$file"
  printf '%s\n' "$2" > "$room/crates/caller/src/lib.rt"
  printf 'uint32_t oblachura_one(void);\n' > "$room/header"
  read_crates "$room/crates" "$room/header" | sed "s|$room/||"
  rm -r "$room"
}

# EXPECTED SOURCE CALLER [FILE]
must_find() {
  local found
  found=$(try_source "${@:2}")
  [ "$found" = "$1" ] || { echo "exported.sh: found '$found' where it must find '$1'" >&2; exit 1; }
}

wrong() {
  local call='fn c() { oblachura_one(a) }' fn='pub extern "C" fn oblachura_one() -> u32'
  local asks='oblachura_one has a requires' promise='ensures { Told (record { x = result }) }'
  local named='ensures told { Told result } ensures kept { answer.new ≡ answer.old }'
  local hidden='crates/one/src/lib.rt has text or a comment that may hide a clause'
  must_find '' "$fn $promise { a }" "$call // requires nothing"
  must_find '' "$fn $named { a }" "$call"
  must_find "$asks" "$fn
    requires { length answer.now < 0 }
    $promise
{ 0 }" "$call"
  must_find "$asks" "$fn requires few { m < 3 } $promise { 0 }" "$call"
  must_find "$asks" "$fn $named requires few { m < 3 } { 0 }" "$call"
  must_find "$asks" "$fn requires* few { m < 3 } $promise { 0 }" "$call"
  must_find "$asks" "$fn ghost top: { ℕ } requires { m < top } $promise { 0 }" "$call"
  must_find "$asks" "pub extern\"C\"fn oblachura_one() requires { x } $promise { 0 }" "$call"
  must_find "$asks" "$fn requires { x } $promise { 0 }" "$call" inner/deep.rt
  must_find "$hidden" "$fn /* // */ requires { x } $promise
$promise { 0 }" "$call"
  must_find "$hidden" "const A: &[u8] = b\"//\"; $fn requires { x } $promise { 0 }
$fn $promise { 0 }" "$call"
  must_find "$hidden" "const A: &str = \"//\"; $fn requires { x } $promise { 0 }
$fn $promise { 0 }" "$call"
  must_find "$hidden" "$fn ensures { a -- {
} requires { x } { 0 }" "$call"
  must_find 'oblachura_one has a clause that is not understood' "$fn $promise more { x } requires { x } { 0 }" "$call"
  must_find 'oblachura_one has no ensures' "$fn { if a { 0 } else { 1 } } // ensures { a }" "$call"
  must_find 'oblachura_one is not called' "$fn $promise { 0 }" 'fn c() { none(a) } // oblachura_one(a)'
  must_find 'caller has a requires' "$fn $promise { 0 }" 'fn c() requires { x } { oblachura_one(a) }'
  must_find 'oblachura_one is not in both source and header' 'fn one() { 0 }' "$call"
  echo 'each wrong source of an exported function is found'
}

if [ "${1:-}" = --wrong ]; then
  wrong
else
  found=$(read_crates crates include/oblachura.h)
  [ -z "$found" ] || { printf '%s\n' "$found" >&2; exit 1; }
  echo 'each exported function has an ensures and no requires, and is in the header and, of its name, in caller'
fi
