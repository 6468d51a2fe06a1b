#!/usr/bin/env bash
# Compares the library and the program with the independent program of tests/independent/.
#   tests/independent.sh [COUNT [SEED]]   the planted faults, then COUNT plans made from SEED
#   tests/independent.sh --planted        the planted faults alone
#   tests/independent.sh --plant NAME     one planted fault: shows the disagreement and fails
#   tests/independent.sh --plan HEX       one plan
#   tests/independent.sh --help           the options and the planted faults
set -euo pipefail

cd "$(dirname "$0")/.."
. tests/common/build.sh
witness=target/independent/independent

need_compilers
build_archives
build_bounds

mkdir -p target/independent
"${rust[@]}" --edition 2021 -O -D warnings -L native=target/staticlib -l static=analyser -l static=writer \
  -l static=converter -o "$witness" tests/independent/main.rs

case "${1:-}" in
--help)
  "${emulator[@]}" "$witness" --help
  ;;
--*)
  "${emulator[@]}" "$witness" "$bounds" "$@"
  ;;
*)
  # In an emulator the program takes a twentieth of a second to start, and it is started for each plan.
  if [ ${#emulator[@]} != 0 ] && [ $# = 0 ]; then set -- 4000; fi
  "${emulator[@]}" "$witness" "$bounds" --planted
  "${emulator[@]}" "$witness" "$bounds" "$@"
  ;;
esac
