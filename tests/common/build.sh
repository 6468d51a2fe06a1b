# Sourced by the tests: makes what they need of the product, and installs the tools that are missing.

# fetch PACKAGE..: Debian's, with options for apt-get before them
fetch() {
  apt-get update -q && apt-get install -qy "$@"
}

# need COMMAND: a Debian package of the same name has it
need() {
  command -v "$1" >/dev/null || fetch "$1"
}

# stale FILE: it is missing, or some file of the crates is newer, less what rt made there
stale() {
  [ ! -f "$1" ] || [ crates.txt -nt "$1" ] ||
    [ -n "$(find crates -mindepth 2 -regex 'crates/[^/]*/out' -prune -o -newer "$1" -print -quit)" ]
}

# The product is code for x86-64. On another processor C and Rust are compiled for it too, by Debian's cross compilers
# and Debian's rustc, whose libraries for x86-64 are packages, and all of it runs in an emulator.
if [ "$(uname -m)" = x86_64 ]; then
  c=(gcc) cpp=(g++) rust=(rustc) tools='' emulator=()
else
  c=(x86_64-linux-gnu-gcc) cpp=(x86_64-linux-gnu-g++) tools=x86_64-linux-gnu- emulator=(qemu-x86_64)
  rust=(/usr/bin/rustc --target x86_64-unknown-linux-gnu -C linker=x86_64-linux-gnu-gcc)
fi

need_emulator() {
  if [ ${#emulator[@]} = 0 ] || { command -v qemu-x86_64 && [ -e /lib64/ld-linux-x86-64.so.2 ]; } >/dev/null; then return; fi
  dpkg --add-architecture amd64
  fetch --no-install-recommends qemu-user libc6:amd64
}

need_compilers() {
  if [ ${#emulator[@]} = 0 ]; then
    need gcc
    need g++
    need rustc
    return
  fi
  need_emulator
  if [ ! -e /usr/lib/rustlib/x86_64-unknown-linux-gnu ]; then
    fetch --no-install-recommends {gcc,g++}-x86-64-linux-gnu libc6-dev-amd64-cross rustc libstd-rust-dev:amd64
  fi
}

# The libraries for C and Rust, and the program.
analyser=target/staticlib/libanalyser.a
writer=target/staticlib/libwriter.a
converter=target/staticlib/libconverter.a
bounds=target/bin/bounds

# The instructions that every x86-64 processor has, and no later ones.
cpu=x86-64

# deps CRATE: the libraries that its line of crates.txt names
deps() {
  sed -nE "s/^$1( +staticlib)? *://p" crates.txt
}

# below CRATE: all libraries below it
below() {
  local found=" " left dep
  left=$(deps "$1")
  while [ -n "${left// /}" ]; do
    read -r dep left <<<"$left"
    case "$found" in *" $dep "*) continue ;; esac
    found+="$dep "
    left+=" $(deps "$dep")"
  done
  echo "$found"
}

# left_by_ci LIBRARY: what `rt ci` proved of it stands there, and is of the files as they are. What other commands built has a
# stamp, and `rt lib` uses it.
left_by_ci() {
  local rlib=crates/$1/out/rlib
  [ -d "$rlib/$1.rlib" ] && [ ! -e "$rlib/stamp" ] && ! [ crates.txt -nt "$rlib/$1.rlib" ] &&
    [ -z "$(find "crates/$1"/{src,specs,proofs} -newer "$rlib/$1.rlib" -print -quit 2>/dev/null)" ]
}

# compile CRATE ARCHIVE: proves the crate and compiles it, over the libraries that `rt ci` proved, which no rt command takes up
compile() {
  local kit dep words=()
  kit=$(dirname "$(rt doc)")
  for dep in $(deps "$1"); do words+=(--extern "$dep=$PWD/crates/$dep/out/rlib/$dep.rlib"); done
  for dep in $(below "$1"); do words+=(-L "dependency=$PWD/crates/$dep/out/rlib"); done
  (cd "crates/$1" && "$kit/bin/rattle" build --crate-name "$1" src/lib.rt --crate-type staticlib --cpu=$cpu \
    --extern "std=$kit/rlibs/std.rlib" -L "dependency=$kit/rlibs" "${words[@]}" --toolchain "$kit/toolchain" --backend llvm \
    --antt-project "$kit/rattle/logic/antt-project.json" --logic-built "$kit/logic_built" --links "$1=" -o "$OLDPWD/$2")
}

# build_archive CRATE ARCHIVE: behind `rt ci` it proves the crate alone, and else what `rt lib` has not yet proved
build_archive() {
  local dep by_ci=yes
  if ! stale "$2"; then return; fi
  mkdir -p target/staticlib
  for dep in $(below "$1"); do left_by_ci "$dep" || by_ci=no; done
  if [ $by_ci = yes ] && compile "$1" "$2"; then return; fi
  (cd "crates/$1" && rt lib --cpu=$cpu)
  cp "crates/$1/out/lib$1.a" "$2"
}

build_archives() {
  build_archive analyser_c "$analyser"
  build_archive writer_c "$writer"
  build_archive converter_c "$converter"
}

# Behind it `bounds` is what a test, or a program under test, can start.
build_bounds() {
  if stale target/bin/bounds; then
    # Where it cannot run, as on another processor, it is built all the same.
    if stale crates/bounds/out/bounds && ! (cd crates/bounds && rt run </dev/null >/dev/null) && stale crates/bounds/out/bounds; then return 1; fi
    mkdir -p target/bin
    cp crates/bounds/out/bounds target/bin/bounds
  fi
  need_emulator
  if [ ${#emulator[@]} != 0 ]; then
    bounds=target/emulated/bounds
    mkdir -p target/emulated
    printf '#!/bin/sh\nexec %s target/bin/bounds\n' "${emulator[*]}" >"$bounds"
    chmod +x "$bounds"
  fi
}
