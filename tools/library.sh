#!/bin/sh
# Makes the proved library, target/staticlib/libcrpd.a, and notes beside it with which toolchain it was proved. The note has the library's
# checksum, so that it says nothing of another one, nor of one whose making was ended midway.
set -eu
root=$(cd "$(dirname "$0")/.." && pwd -P)
library=$root/target/staticlib
cd "$root"
rm -f "$library/libcrpd.proved"
tools/static.sh crpd_c crpd
toolchain=$(rt version)
printf '%s\n%s\n' "$(sha256sum <"$library/libcrpd.a")" "$toolchain" >"$library/libcrpd.proved"
