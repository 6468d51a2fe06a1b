#!/usr/bin/env bash
# The plans of plans/: the program `bounds` prints of each what its .text has (tests/hex.py holds each to its hex). Of an
# input that cannot be read and of a lost output it tells what docs/BOUNDS.md says, and so do the lines of shell there.
set -euo pipefail
cd "$(dirname "$0")/.."
. tests/common/build.sh
out=target/plans

fail() {
  echo "plans: $*" >&2
  exit 1
}

# script_exits STATUS COMMAND NAME: so do the lines of shell of docs/BOUNDS.md on this plan, with the command as `bounds`
script_exits() {
  local script status=0
  script=$(sed -n '/^```sh$/,/^```$/p' docs/BOUNDS.md | sed '1d;$d')
  cp "plans/$3.plan" "$out/my.plan"
  printf '#!/bin/sh\ncd "%s" && %s\n' "$PWD" "$2" >"$out/bounds"
  chmod +x "$out/bounds"
  (cd "$out" && PATH=.:$PATH sh -c "$script") || status=$?
  [ "$status" = "$1" ] || fail "the script of docs/BOUNDS.md exits with $status, not $1, on $3 by $2"
}

# check_lost: a lost output is told on standard error and by the exit status
check_lost() {
  local status=0
  "$bounds" <plans/P.plan >/dev/full 2>"$out/errors" || status=$?
  [ "$status" = 1 ] || fail "$bounds exits with $status where its output is lost"
  grep -q '^Error:' "$out/errors" || fail "$bounds does not tell that its output is lost"
}

build_bounds
mkdir -p "$out"
plans=0
for path in plans/*.plan; do
  name=$(basename "$path" .plan)
  "$bounds" <"$path" >"$out/printed" 2>"$out/errors" || fail "$bounds fails on $name"
  cmp "$out/printed" "plans/$name.text" || fail "$bounds prints something else of $name"
  [ ! -s "$out/errors" ] || fail "$bounds writes to standard error on $name"
  plans=$((plans + 1))
done
[ "$plans" -gt 0 ] || fail "plans/ has no plan"
[ "$("$bounds" </)" = "refused 1 at 0" ] || fail "$bounds prints something else of an input that cannot be read"
check_lost
script_exits 0 "$bounds" P
script_exits 1 "$bounds" buffer-65
script_exits 2 true P
script_exits 2 "$bounds | head -n 3" P
script_exits 0 "$bounds" priority-flits-2
script_exits 2 "$bounds | head -n 3" priority-flits-2
echo "plans: bounds prints the text of $plans plans"
