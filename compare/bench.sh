#!/bin/sh
# Makes the proved library, its parts and its writing of values, builds the benchmark and runs it. Takes the
# words of the benchmark.
set -eu

here=$(cd "$(dirname "$0")" && pwd -P)
root=$(dirname "$here")
cd "$root"
mkdir -p target
for library in crpd_c bench_parts test_values; do
    name=$library
    [ "$library" != crpd_c ] || name=crpd
    tools/static.sh "$library" "$name" >"target/$name.log" 2>&1 || { cat "target/$name.log" >&2; exit 1; }
done
compare/build.sh >/dev/null
exec target/compare/bench "$@"
