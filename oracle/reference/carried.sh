#!/bin/sh
# Holds the carried files against docs/src: sh carried.sh PATH/docs/src
# Prints every line that differs; fails where a line was added that doesn't say `stand-in:`.
set -eu
kept=$(mktemp)
trap 'rm -f "$kept"' EXIT
here=$(cd "$(dirname "$0")" && pwd)
src=$1
bad=0
hold() {
    echo "== $2"
    diff "$src/$1" "$here/src/$2" >"$kept" || true
    cat "$kept" | grep '^[<>]' | grep -v '^< ' || true
    if grep '^>' "$kept" | grep -v '^> *$' | grep -qv 'stand-in:'; then bad=1; fi
    echo "   $(grep -c '^<' "$kept" || true) lines of docs/src not carried"
}
hold homotopy-graphics/src/subdivision/simplicial.rs subdivision/simplicial.rs
hold homotopy-graphics/src/subdivision/cubical.rs subdivision/cubical.rs
hold homotopy-graphics/src/parity.rs parity.rs
hold homotopy-common/src/idx.rs idx.rs
hold homotopy-graphics/src/geom.rs geom.rs
exit $bad
