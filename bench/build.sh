# Sourced by bench/run and bench/check, in the root and after check/shell.sh: builds the harness for x86-64 and runs it.

say() { printf 'bench: %s\n' "$*" >&2; }

need_rt
bench_lib=$(kit)/toolchain/lib
bench_out=target/bench
bench_flags=(-target x86_64-unknown-linux-gnu -O2)

# The Debian packages that building takes.
bench_needs() {
  need python3 python3 -c 'import struct'
  need clang clang --version
  need lld ld.lld --version
  need libc6-dev test -e /usr/include/ucontext.h
}

# bench_library: the archive to measure, proved and built if it has to be. WIKUAY_ARCHIVE names another build.
bench_library() {
  library=${WIKUAY_ARCHIVE:-target/lib/libwikuay.a}
  mkdir -p "$bench_out"
  if [ -n "${WIKUAY_ARCHIVE:-}" ]; then say "measuring $library"; else (archive) >&2 || exit 2; fi
}

# bench_compile NAME: one C file of bench/ into an object.
bench_compile() {
  clang "${bench_flags[@]}" -std=gnu11 -Wall -Wextra -Werror -Iinclude -c "bench/$1.c" -o "$bench_out/$1.o"
}

# bench_harness LIBRARY: links the harness with an archive, or with an object file that stands for it.
bench_harness() {
  local name
  mkdir -p "$bench_out"
  for name in harness peers plain search meter; do bench_compile "$name"; done
  ld.lld -pie --dynamic-linker /lib64/ld-linux-x86-64.so.2 -o "$bench_out/harness" \
    "$bench_lib"/{Scrt1.o,crti.o,crtbeginS.o} "$bench_out"/{harness,peers,plain,search,meter}.o "$1" \
    "$bench_lib"/{libc.so.6,libc_nonshared.a,libgcc.a,crtendS.o,crtn.o}
}

# bench_measure WORD..: runs the harness, with the peers' C library if they were unpacked for it, else with the kit's.
bench_measure() {
  if [ -n "${bench_peers:-}" ]; then
    "$bench_peers/loader" --library-path "$(cat "$bench_peers/path")" "$bench_out/harness" "$@"
  else
    "$bench_lib/ld-linux-x86-64.so.2" --library-path "$bench_lib" "$bench_out/harness" "$@"
  fi
}
