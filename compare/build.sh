#!/bin/sh
# Builds the comparison and the benchmark for x86-64, the only processor that the proved library is
# for. On another machine it installs Debian's cross tools where they are missing; on an x86-64
# machine it installs nothing.
set -eu

usage() {
    cat <<'EOF'
usage: build.sh [--library FILE] [--values FILE] [--parts FILE] [--stand-in] [--out FOLDER]

  --library FILE   the proved library (default: target/staticlib/libcrpd.a of the repository)
  --values FILE    its writing of any table value (default: target/staticlib/libtest_values.a)
  --parts FILE     its parts, for the benchmark (default: target/staticlib/libbench_parts.a, if it is there)
  --stand-in       link no library: the plain version stands in for it
  --out FOLDER     where the programs go (default: target/compare of the repository)

An emulator for x86-64 programs may be named in the variable EMULATOR.
EOF
}

here=$(cd "$(dirname "$0")" && pwd -P)
root=$(dirname "$here")
. "$root/tools/x86-64.sh"
library=$root/target/staticlib/libcrpd.a
values=$root/target/staticlib/libtest_values.a
parts=$root/target/staticlib/libbench_parts.a
stand_in=no
out=$root/target/compare

while [ $# -gt 0 ]; do
    case $1 in
    --stand-in) stand_in=yes ;;
    --library | --values | --parts | --out)
        [ $# -ge 2 ] || { usage >&2; exit 2; }
        case $1 in
        --library) library=$2 ;;
        --values) values=$2 ;;
        --parts) parts=$2 ;;
        --out) out=$2 ;;
        esac
        shift
        ;;
    --help) usage; exit 0 ;;
    *) usage >&2; exit 2 ;;
    esac
    shift
done
mkdir -p "$out/x86-64"
out=$(cd "$out" && pwd -P)

x86_tools "$out/lib"
# shellcheck disable=SC2086
set -- $rust_flags

# ---- the programs

if [ "$stand_in" = no ]; then
    [ -r "$library" ] || x86_die "there is no $library (see --library and --stand-in)"
    [ -r "$values" ] || x86_die "there is no $values (see --values and --stand-in)"
    mkdir -p "$out/library"
    cp "$library" "$out/library/libcrpd.a"
    cp "$values" "$out/library/libtest_values.a"
    set -- "$@" -L "native=$out/library" --cfg 'feature="library"' --cfg 'feature="values"'
    if [ -r "$parts" ]; then
        cp "$parts" "$out/library/libbench_parts.a"
        set -- "$@" --cfg 'feature="parts"'
    fi
fi
"$rustc" "$@" --crate-type rlib --crate-name crpd_compare \
    -o "$out/libcrpd_compare.rlib" "$here/src/lib.rs"
for program in compare bench; do
    source=$here/src/bin/$program.rs
    [ "$program" != compare ] || source=$here/src/main.rs
    "$rustc" "$@" --crate-name "$program" --extern "crpd_compare=$out/libcrpd_compare.rlib" \
        -o "$out/x86-64/$program" "$source"
    printf '#!/bin/sh\nexec %s "%s" "$@"\n' "$emulator" "$out/x86-64/$program" >"$out/$program"
    chmod +x "$out/$program"
done
echo "compare: built with $("$rustc" --version); run $out/compare and $out/bench"
