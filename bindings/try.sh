#!/bin/sh
# Builds the C and the Rust example over the proved library, runs them on an example table, and holds what they print to
# bindings/expected. The last line is 'N passed, M failed'.
set -u
here=$(cd "$(dirname "$0")" && pwd -P)
root=$(dirname "$here")
. "$root/tools/x86-64.sh"
library=${1:-$root/target/staticlib}
out=$root/target/bindings
passed=0
failed=0

[ -r "$library/libcrpd.a" ] || x86_die "there is no libcrpd.a in $library: run tools/library.sh first"
mkdir -p "$out"
x86_tools "$out/lib"

# $1: what is tried; $2: the program
holds() {
    if $emulator "$2" <"$root/examples/controller.table" | cmp - "$here/expected"; then
        passed=$((passed + 1))
    else
        failed=$((failed + 1))
        echo "$1: prints something else"
    fi
}

# shellcheck disable=SC2086
$cc $cc_flags -Wall -Wextra -Werror -I "$here/c" -o "$out/c-example" "$here/c/example.c" "$library/libcrpd.a"
holds 'the C example' "$out/c-example"

# shellcheck disable=SC2086
"$rustc" $rust_flags -L "native=$library" --crate-type rlib --crate-name crpd -o "$out/libcrpd.rlib" "$here/rust/src/lib.rs" &&
    "$rustc" $rust_flags -L "native=$library" --crate-name answers --extern "crpd=$out/libcrpd.rlib" -o "$out/rust-example" \
        "$here/rust/examples/answers.rs"
holds 'the Rust example' "$out/rust-example"

echo "$passed passed, $failed failed"
[ "$failed" -eq 0 ]
