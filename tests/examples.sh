#!/usr/bin/env bash
# The header and the examples for C and Rust: the analysing ones must print of every plan of plans/ what its .text says,
# less the mesh line, which no reply has; the writing ones must write plan P; the converting ones must make of every plan
# what plans/README.md says. A call must do with memory what include/lingfallow.h says of it.
set -euo pipefail
cd "$(dirname "$0")/.."

. tests/common/build.sh
out=target/examples
examples=(analyse:analyser write:writer convert:converter) # each with its archive
strict=(-Wall -Wextra -Wpedantic -Werror -Iinclude)

fail() {
  echo "examples: $*" >&2
  exit 1
}

# newest_edition RUSTC..: the newest edition of Rust that it knows
newest_edition() {
  if "$@" --edition 2024 --print sysroot >"$out/sysroot" 2>&1; then echo 2024; else echo 2021; fi
}

# The header alone in C++98; the examples, which include it, in C99 and C++20.
build_c() {
  "${cpp[@]}" -std=c++98 "${strict[@]}" -fsyntax-only -x c++ include/lingfallow.h
  for example in "${examples[@]}"; do
    "${c[@]}" -std=c99 "${strict[@]}" "examples/${example%:*}.c" "target/staticlib/lib${example#*:}.a" -o "$out/${example%:*}-c"
    "${cpp[@]}" -std=c++20 "${strict[@]}" -fsyntax-only -x c++ "examples/${example%:*}.c"
  done
  "${c[@]}" -std=c11 "${strict[@]}" tests/memory.c "$analyser" "$writer" "$converter" -o "$out/memory"
}

# In the newest edition that the compiler knows; another rustc that is there, if it knows a newer one, looks at them too.
build_rust() {
  local edition newer
  edition=$(newest_edition "${rust[@]}")
  newer=$(newest_edition rustc)
  for example in "${examples[@]}"; do
    "${rust[@]}" --edition "$edition" -D warnings -L target/staticlib -l "static=${example#*:}" "examples/${example%:*}.rs" \
      -o "$out/${example%:*}-rust"
    if [ "$newer" != "$edition" ]; then
      rustc --edition "$newer" -D warnings --emit metadata "examples/${example%:*}.rs" -o "$out/${example%:*}.rmeta"
    fi
  done
  echo "examples: Rust built in edition $edition, looked at in edition $newer"
}

build() {
  need_compilers
  build_archives
  mkdir -p "$out"
  build_c
  build_rust
}

# check_archive ARCHIVE FUNCTIONS: what the header says of it: these functions from outside, and no data that changes
check_archive() {
  local outside changing
  outside=$("${tools}nm" -u "$1" | awk '$1 == "U" { print $2 }' | sort | xargs)
  [ "$outside" = "$2" ] || fail "$1 calls: $outside"
  changing=$("${tools}size" "$1" | awk 'NR > 1 { bytes += $2 + $3 } END { print bytes }')
  [ "$changing" = 0 ] || fail "$1 has $changing bytes of data that change"
}

# check_lost PROGRAM INPUT OUTPUT WORD..: it exits with 2 where its input cannot be read, or its output is lost
check_lost() {
  local status=0
  "${emulator[@]}" "$1" "${@:4}" <"$2" >"$3" 2>"$out/errors" || status=$?
  [ "$status" = 2 ] || fail "$1 exits with $status from $2 to $3"
}

# check PROGRAM NAME: what it prints of the plan, its exit status, and that it writes no error
check() {
  local program=$1 name=$2 status=0 expected=0
  sed '/^mesh /d' "plans/$name.text" >"$out/expected"
  if grep -q '^refused ' "$out/expected"; then expected=1; fi
  "${emulator[@]}" "$program" <"plans/$name.plan" >"$out/printed" 2>"$out/errors" || status=$?
  cmp "$out/printed" "$out/expected" || fail "$program prints something else of $name"
  [ ! -s "$out/errors" ] || fail "$program writes to standard error on $name"
  [ "$status" = "$expected" ] || fail "$program exits with $status on $name, not $expected"
}

# What plans/README.md says of the conversion: a plan and what it becomes, line by line.
becomes() {
  sed -n '/^| Plan | Becomes |$/,/^$/s/^| `\(.*\)` | `\(.*\)` |$/\1 \2/p' plans/README.md
}

# of_flows COUNT METHOD: the bytes of a platform record, so many flow records and the end record
of_flows() {
  {
    echo "01 0006 06 01 01 00 0A $2"
    for k in $(seq "$1"); do printf '02 0014 %04X %04X 00 01 0001 00000009 00000009 00000000\n' "$k" "$k"; done
    echo "7F 0000"
  } >"$out/flows.hex"
  plans/bytes "$out/flows.hex"
}

# must_be NAME WORDS: what is to be said of the stored plan; its bytes then are standard input
must_be() {
  echo "$2" >"$out/said/$1"
  cat >"$out/converted/$1.plan"
}

# The plans in `stored` are those of plans/ and three more: one of 64 flows, one of 65, which more bytes than the longest
# plan has tell from a cut one, and one with more bytes behind it than are read. `converted` has what they must become.
prepare_conversion() {
  local stored=$out/stored name to
  rm -rf "$stored" "$out"/{converted,said}
  mkdir "$stored" "$out"/{converted,said}
  cp plans/*.plan "$stored"
  for name in $(basename -s .plan plans/*.plan); do
    must_be "$name" "$(grep '^refused ' "plans/$name.text" || echo kept)" <"plans/$name.plan"
  done
  while read -r name to; do
    must_be "$name" converted <"plans/$to.plan"
  done < <(becomes)
  of_flows 64 00 >"$stored/flows-64.plan"
  of_flows 64 02 | must_be flows-64 converted
  of_flows 65 00 >"$stored/flows-65.plan"
  must_be flows-65 "refused 6 at 1481" <"$stored/flows-65.plan"
  { cat plans/method-0.plan && head -c 4096 /dev/zero; } >"$stored/zeros-behind.plan"
  must_be zeros-behind "refused 10 at 81" <"$stored/zeros-behind.plan"
}

# said_of FOLDER: what must be said of the plans there
said_of() {
  local path
  for path in "$1"/*.plan; do
    echo "$path: $(cat "$out/said/$(basename "$path" .plan)")"
  done
}

# converts STATUS PROGRAM FILE..: so does it exit; what it says is in `printed` and `errors`
converts() {
  local status=0
  "${emulator[@]}" "${@:2}" >"$out/printed" 2>"$out/errors" || status=$?
  [ "$status" = "$1" ] || fail "$2 exits with $status, not $1, on ${*:3}"
}

# check_converted PROGRAM WORD: all plans in one run; the word is what is said of a plan that asked for the default
check_converted() {
  local lent=$out/lent
  converts 1 "$1" "$lent"/*.plan
  said_of "$lent" | sed "s/: converted$/: $2/" | cmp - "$out/printed" || fail "$1 says something else of the plans"
  [ ! -s "$out/errors" ] || fail "$1 writes to standard error"
  diff -r "$lent" "$out/converted" || fail "$1 makes other plans"
}

# check_unread PROGRAM PATH: it tells with 2 that it cannot read this, and goes on
check_unread() {
  local plan=$out/lent/method-0.plan
  cp plans/method-0.plan "$plan"
  converts 2 "$1" "$2" plans/buffer-65.plan "$plan"
  grep -q "^convert: $2: " "$out/errors" || fail "$1 does not tell that $2 cannot be read"
  cmp "$plan" plans/method-2.plan || fail "$1 does not go on behind $2"
}

# check_unwritten PROGRAM: where no file can be written it keeps a plan that needs no conversion, and tells of one that does
check_unwritten() {
  local kept=$out/lent/P.plan plan=$out/lent/method-0.plan status=0 told
  cp plans/method-0.plan "$plan"
  told=$(trap '' XFSZ && ulimit -f 0 && "${emulator[@]}" "$1" "$kept" "$plan" 2>&1) || status=$?
  case "$status $told" in
    "2 $kept: kept"$'\n'"convert: $plan: "*) ;;
    *) fail "$1 exits with $status where it cannot write, and tells: $told" ;;
  esac
  cmp "$plan" plans/method-0.plan || fail "$1 changes a file that it cannot write"
}

check_convert() {
  rm -rf "$out/lent"
  cp -r "$out/stored" "$out/lent"
  check_converted "$1" converted
  check_converted "$1" kept
  converts 0 "$1" "$out/lent/P.plan" "$out/lent/method-0.plan"
  converts 2 "$1"
  check_unread "$1" "$out/lent"
  check_unread "$1" "$out/lent/missing.plan"
  check_unwritten "$1"
  check_lost "$1" /dev/null /dev/full "$out/lent/P.plan"
}

build
check_archive "$analyser" "memcpy memset"
check_archive "$writer" "memcpy memset"
check_archive "$converter" ""
prepare_conversion
plans=0
for plan in plans/*.plan; do
  for language in c rust; do
    check "$out/analyse-$language" "$(basename "$plan" .plan)"
  done
  plans=$((plans + 1))
done
[ "$plans" -gt 0 ] || fail "plans/ has no plan"
for language in c rust; do
  check_lost "$out/analyse-$language" / "$out/printed"
  check_lost "$out/analyse-$language" plans/P.plan /dev/full
  check_lost "$out/write-$language" /dev/null /dev/full
  "${emulator[@]}" "$out/write-$language" | cmp - plans/P.plan || fail "write-$language writes something else than P"
  check_convert "$out/convert-$language"
done
"${emulator[@]}" "$out/memory" <plans/P.plan
echo "examples: 2 programs agree on $plans plans, 2 write P, and 2 convert $(becomes | wc -l) of the plans and keep the others"
