# shellcheck shell=bash
# What the proved programs are built from, and the stamp of one that is as it was built. To be sourced, where $root is the top of the clone.
: "${root:?}"

program_of() {
  printf '%s\n' "$root/crates/$1/out/$1"
}

stamp_of() {
  printf '%s\n' "$root/target/run/$1"
}

# All that the programs are built from, as one hash: the toolchain and the crates, without what was made of them.
sources() {
  (cd "$root" && { rt version </dev/null && find crates.txt crates -regex 'crates/[^/]*/out' -prune -o -type f -print0 | LC_ALL=C sort -z | xargs -0 sha256sum; } | sha256sum)
}

# What stands in the stamp of a program that is as it was built: from which sources, and which program came of them.
stamp_from() {
  printf '%s\n' "$2"
  sha256sum <"$(program_of "$1")"
}

# Remembers that a program was built from these sources: remember NAME SOURCES
remember() {
  mkdir -p "$root/target/run" && stamp_from "$1" "$2" >"$(stamp_of "$1")"
}

is_built() {
  [ -f "$(program_of "$1")" ] && [ -f "$(stamp_of "$1")" ] && [ "$(cat "$(stamp_of "$1")")" = "$(stamp_from "$1" "$(sources)")" ]
}
