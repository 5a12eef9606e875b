# shellcheck shell=bash
# What demo/run, hosts/run and differential/ share: whether what `rt` built is still of the files as they stand, and the static library. `rt` builds only
# what is proved.

root=$(cd "$(dirname "${BASH_SOURCE[0]}")/.." && pwd)
library=$root/crates/varddohas/out/libvarddohas.a

# Whether a built file is there, and nothing that it is made of is younger: crates.txt, the files of the crates, the toolchain.
is_current() {
  [ -f "$1" ] || return
  [ -z "$(find "$root/crates.txt" "$(readlink -f "$(command -v rt)")" -newer "$1" -print -quit)" ] || return
  [ -z "$(find "$root/crates" -mindepth 2 -name out -prune -o -newer "$1" -print -quit)" ]
}

# Proves and builds the static library, unless it is current.
make_library() {
  is_current "$library" || (cd "$root/crates/varddohas" && rt lib) >&2
}
