# For the scripts beside it: `build NAME` proves and builds the program of the crate NAME, unless one stands there that is
# newer than all sources, and sets `program` to it.
top=$(cd "$(dirname "${BASH_SOURCE[0]}")/.." && pwd)
build() { # name
  "$top/tools/prove" "$1"
  program="$top/crates/$1/out/$1"
}
