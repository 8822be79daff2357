#!/bin/sh
# static.sh CRATE [NAME]: proves what a static library of crates.txt needs, proves and builds it (prove.sh), and puts it into target/staticlib, as libNAME.a (libCRATE.a where no NAME is given).
set -eu
root=$(cd "$(dirname "$0")/.." && pwd -P)
crate=$1
to=$root/target/staticlib
mkdir -p "$to"
"$root/tools/prove.sh" "$crate" rt lib
cp "$root/crates/$crate/out/lib$crate.a" "$to/lib${2:-$crate}.a"
