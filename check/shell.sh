# Shell functions that the scripts share. A script that sources this has set -euo pipefail, and stands in the root.
# shellcheck shell=bash

# need PACKAGE COMMAND..: installs the Debian package if the command fails.
need() {
  local package=$1 me=${0##*/} as=()
  shift
  "$@" >/dev/null 2>&1 && return
  printf '%s: installing the Debian package %s\n' "$me" "$package"
  [ "$(id -u)" = 0 ] || as=(sudo)
  { "${as[@]}" apt-get update -qq && "${as[@]}" apt-get install -qq -y --no-install-recommends "$package" >/dev/null; } || true
  "$@" >/dev/null 2>&1 && return
  printf "%s: '%s' fails; install the Debian package %s and try again\n" "$me" "$*" "$package"
  exit 2
}

# need_rt: ends the script where the Rattle kit is missing, or can be of no use.
need_rt() {
  if [ "$(uname -m)" != x86_64 ]; then
    printf '%s: the Rattle kit is for x86-64, and this machine is %s\n' "${0##*/}" "$(uname -m)"
    exit 2
  fi
  command -v rt >/dev/null 2>&1 && return
  printf '%s: the command rt is not on the PATH; install the Rattle kit (%s) and try again\n' "${0##*/}" "$(cat kit.txt)"
  exit 2
}

# newer FILE: whether a source of code is newer than it. Definitions and proofs change no program: `rt` judges them. Folders count too:
# they tell of files that are gone. No process is started.
newer() {
  local source found=1 flat=''
  shopt -q globstar || flat=1
  shopt -s globstar
  for source in crates.txt crates/*/src/**; do
    if [[ $source -nt $1 ]]; then
      found=0
      break
    fi
  done
  [ -z "$flat" ] || shopt -u globstar
  return $found
}

# stale FILE: whether FILE is missing, or older than a source.
stale() { [ ! -s "$1" ] || newer "$1"; }

# stale_program NAME: the same of target/bin/NAME.
stale_program() { [ ! -x "target/bin/$1" ] || stale "target/bin/$1"; }

# take MADE FILE BEGUN: FILE becomes a copy of what rt made, whole or not at all. It is as old as BEGUN, the begin of the build, so that
# a source that is changed meanwhile is newer.
take() {
  mkdir -p "${2%/*}"
  cp "$1" "$2.new"
  touch -r "$3" "$2.new"
  mv "$2.new" "$2"
}

# build NAME MADE FILE WORDS..: runs rt on the words in the folder of the crate NAME, and takes what it makes there, out/MADE, as FILE.
# Standard error has a line for each crate that is proved. Ends the script where that fails.
build() {
  local name=$1 made=crates/$1/out/$2 file=$3 me=${0##*/}
  shift 3
  printf '%s: proving and building %s; this takes some minutes\n' "$me" "$file" >&2
  mkdir -p target
  : >"target/$name.begun"
  if ! (cd "crates/$name" && rt "$@" </dev/null 2>&1) | tee target/prove.log |
    sed -u -n "/^crate \([a-z0-9_]*\): .*/{s//$me: \1 proved/;h};/^logic=proved/{x;p}" >&2 ||
    [ ! -s "$made" ] || ! take "$made" "$file" "target/$name.begun"; then
    printf '%s: the proof or the build failed; target/prove.log says why\n' "$me" >&2
    exit 1
  fi
}

# archive: proves the exported calls and builds target/lib/libwikuay.a, where that is stale. The crate that exports them is `wikuay_c`,
# since `wikuay` is a library of this repository, and a crate is not both. Its code runs on every x86-64 processor: a caller's program would
# not be told that one lacks what the kit's own choice, x86-64-v2, needs.
archive() {
  ! stale target/lib/libwikuay.a || build wikuay_c libwikuay_c.a target/lib/libwikuay.a lib --cpu=x86-64
}

# program NAME: proves and builds target/bin/NAME and what it stands on, where that is stale. rt runs what it builds: on the words that
# `rt ci` gives it.
program() {
  local words=()
  stale_program "$1" || return 0
  [ ! -f "crates/$1/args" ] || mapfile -t words <"crates/$1/args"
  build "$1" "$1" "target/bin/$1" run -- "${words[@]}"
}

# kit: the folder of the Rattle kit.
kit() { dirname "$(rt doc)"; }

# run NAME WORDS..: runs target/bin/NAME with the loader and the C library of the kit.
run() {
  local made=target/bin/$1 lib
  shift
  lib=$(kit)/toolchain/lib
  "$lib/ld-linux-x86-64.so.2" --library-path "$lib" "$made" "$@"
}
