# shellcheck shell=bash disable=SC2034
# What `record`, `run` and `measure` share: the given source, the crates that it names, a compiler for the library's machine, and the library.
# A function that cannot have what it looks for says why in `reason`, and fails.

here=$(cd "$(dirname "${BASH_SOURCE[0]}")" && pwd)
reason=

# PORTGRAPH_SRC names the folder of the source (default: ../shared/docs/src, seen from the repository's root).
find_source() {
  local source=${PORTGRAPH_SRC:-$here/../../shared/docs/src}
  if [ ! -f "$source/src/lib.rs" ]; then
    reason="the portgraph source is not there: no src/lib.rs in $source (set PORTGRAPH_SRC)"
    return 1
  fi
  PORTGRAPH_SRC=$(cd "$source" && pwd) # absolute, since cargo runs in another folder
  export PORTGRAPH_SRC
}

# Installs the Debian packages named that are not there yet.
get_packages() {
  local missing=() package
  for package in "$@"; do
    dpkg-query --show --showformat='${db:Status-Abbrev}' "$package" 2>/dev/null | grep -q '^ii' || missing+=("$package")
  done
  [ "${#missing[@]}" -gt 0 ] || return 0
  echo "differential: installing ${missing[*]}" >&2
  if ! apt-get --quiet --quiet update >/dev/null ||
    ! DEBIAN_FRONTEND=noninteractive apt-get --quiet --quiet --yes --no-install-recommends install "${missing[@]}" >/dev/null; then
    reason="the packages ${missing[*]} cannot be had"
    return 1
  fi
}

# The crates that the source names, from Debian's packages. Nothing else is fetched.
get_crates() {
  get_packages librust-itertools-dev librust-num-traits-dev librust-smallvec-dev librust-thiserror-dev
}

# A compiler for x86-64, for which the library is made: `cargo_words` are cargo with its words, `runner` is what runs a program, and programs
# are written to `programs`. On another machine these are Debian's own compiler, with the other machine's standard library, and an emulator.
get_compiler() {
  local minor
  programs=$here/../target/differential/release
  cargo_words=(cargo)
  runner=()
  if [ "$(uname -m)" = x86_64 ]; then
    # the source needs Rust 1.75, and the package cargo of Debian 12 comes with 1.63
    minor=$(rustc --version 2>/dev/null | sed -nE 's/^rustc 1\.([0-9]+)\..*/\1/p')
    if ! command -v cargo >/dev/null || [ "${minor:-0}" -lt 75 ]; then
      get_packages rustc-web cargo-web
    fi
    return
  fi
  dpkg --add-architecture amd64 || { reason='packages for amd64 cannot be had'; return 1; }
  get_packages rustc-web cargo-web libstd-rust-web-dev:amd64 gcc-x86-64-linux-gnu qemu-user || return 1
  export RUSTC=/usr/bin/rustc CARGO_TARGET_X86_64_UNKNOWN_LINUX_GNU_LINKER=x86_64-linux-gnu-gcc
  programs=$here/../target/differential/x86_64-unknown-linux-gnu/release
  cargo_words=(/usr/bin/cargo --config 'build.target="x86_64-unknown-linux-gnu"')
  runner=(qemu-x86_64)
}

# The library: `make_library` makes it anew if it is not there or if anything it is made of is younger.
# shellcheck source=../tools/built.sh
. "$here/../tools/built.sh"
