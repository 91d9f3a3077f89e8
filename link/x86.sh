# shellcheck shell=bash
# Programs for x86-64, which the proved library is code for: how they are compiled, linked and run on this machine. To be sourced.
# The machine's own cc and rustc make them; where there is no cc, the toolchain's compiler, linker and C library serve.
root=$(cd "$(dirname "${BASH_SOURCE[0]}")/.." && pwd) || exit 2
if ! command -v rt >/dev/null; then
  echo "the Rattle toolchain (rt) is not on this machine" >&2
  exit 2
fi
home=$(dirname "$(dirname "$(readlink -f "$(command -v rt)")")")
tools=$home/toolchain
target=x86_64-unknown-linux-gnu
command -v cc >/dev/null && by=machine || by=toolchain

# The folder of a static library's archive, and the archive.
library_of() {
  printf '%s\n' "$root/crates/$1/out"
}

archive_in() {
  printf '%s\n' "$root/crates/$1/out/lib$1.a"
}

# Proves a static library and writes its archive.
archive_of() {
  local said
  if [ ! -f "$(archive_in "$1")" ]; then
    echo "$1 is proved and built first; this takes some minutes" >&2
  fi
  if ! said=$(cd "$root/crates/$1" && rt lib 2>&1 </dev/null); then
    printf '%s\n' "$said" >&2
    return 1
  fi
}

# Runs a program that was linked here with its words.
started() {
  if [ "$by" = machine ]; then
    "$@"
  else
    "$tools/lib/ld-linux-x86-64.so.2" --library-path "$tools/lib" "$@"
  fi
}

# ---- C: a program from a source and an archive; an object from a source with more words for the compiler, which needs no archive

c_program() {
  c_object "$1.o" "$2" && "c_linked_by_$by" "$1" "$1.o" "$3"
}

c_object() {
  "c_object_by_$by" "$@"
}

c_object_by_machine() {
  local out=$1 source=$2
  shift 2
  cc -std=c11 -Wall -Wextra -O1 "$@" -c "$source" -o "$out"
}

c_linked_by_machine() {
  cc -Wl,-z,now -o "$@"
}

# The toolchain's compiler comes without headers; these say what it knows by itself, and what the programs of bench/ ask of the C library.
c_object_by_toolchain() {
  local out=$1 source=$2
  shift 2
  local include=$out.include
  mkdir -p "$include"
  cat >"$include/stddef.h" <<'C'
#pragma once
typedef __SIZE_TYPE__ size_t;
C
  cat >"$include/stdint.h" <<'C'
typedef __UINT8_TYPE__ uint8_t;
typedef __UINT16_TYPE__ uint16_t;
typedef __UINT32_TYPE__ uint32_t;
typedef __UINT64_TYPE__ uint64_t;
#define UINT64_MAX __UINT64_MAX__
C
  cat >"$include/string.h" <<'C'
#include <stddef.h>
void *memset(void *room, int byte, size_t length);
C
  "$tools/bin/clang" --target=$target -std=c11 -Wall -Wextra -O1 -fPIE -ffreestanding -nostdinc -isystem "$include" "$@" \
    -c "$source" -o "$out"
}

c_linked_by_toolchain() {
  "$tools/bin/ld.lld" -pie -z now --dynamic-linker=/lib64/ld-linux-x86-64.so.2 -o "$1" \
    "$tools/lib/Scrt1.o" "$tools/lib/crti.o" "$tools/lib/crtbeginS.o" "$2" "$3" \
    "$tools/lib/libc.so.6" "$tools/lib/libc_nonshared.a" "$tools/lib/libgcc.a" "$tools/lib/crtendS.o" "$tools/lib/crtn.o"
}

# ---- Rust: whether it is there, and a library or a program from a source with more words for the compiler; the edition is 2021 where none is set

# Whether a rustc has Rust's library for x86-64.
find_rust() {
  local libraries
  libraries=$(rustc --print target-libdir --target $target 2>/dev/null) && compgen -G "$libraries/libstd-*.rlib" >/dev/null
}

# That there is none, and what to do about it.
no_rust() {
  echo "there is no rustc with a library for x86-64 on this machine; 'rustup target add $target' installs the library"
}

rust_compiled() {
  local out=$1 source=$2
  shift 2
  rustc --edition "${edition:-2021}" --target $target "$@" -o "$out" "$source"
}

# The second program's library, for programs that name it with --extern.
second_library() {
  local out=$1
  shift
  rust_compiled "$out" "$root/second/src/lib.rs" --crate-type rlib --crate-name second "$@"
}

# The package sagalib, likewise; its own edition is 2024.
saga_library() {
  local out=$1
  shift
  edition=2024 rust_compiled "$out" "$root/link/sagalib/src/lib.rs" --crate-type rlib --crate-name sagalib -L "native=$(library_of sagalib)" "$@"
}

rust_program() {
  "rust_by_$by" "$@"
}

# The machine's own linker and C library need no words.
rust_by_machine() {
  rust_compiled "$@"
}

# Rust asks for the parts of the C library by the names that an installed compiler has for them.
rust_by_toolchain() {
  local out=$1 source=$2 part words=()
  shift 2
  local lib=$out.lib
  rm -rf "$lib"
  mkdir -p "$lib"
  for part in c.so:libc.so.6 m.so:libm.so.6 gcc_s.so:libgcc_s.so.1; do
    ln -s "$tools/lib/${part#*:}" "$lib/lib${part%%:*}"
  done
  for part in dl pthread rt util; do
    printf '!<arch>\n' >"$lib/lib$part.a"
  done
  for part in Scrt1.o crti.o crtbeginS.o crtendS.o crtn.o libc_nonshared.a; do
    words+=(-C "link-arg=$tools/lib/$part")
  done
  rust_compiled "$out" "$source" -L "native=$lib" -C linker-flavor=ld.lld -C "linker=$tools/bin/ld.lld" \
    -C link-arg=--dynamic-linker=/lib64/ld-linux-x86-64.so.2 "${words[@]}" "$@"
}
