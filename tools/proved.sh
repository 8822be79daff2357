# shellcheck shell=sh
# Sourced by the scripts that build over the proved library, which tools/library.sh makes.

# With which toolchain the library in a folder ($1) was proved; fails where that is not noted of this very library.
proved_with() {
    [ -r "$1/libcrpd.a" ] && [ -r "$1/libcrpd.proved" ] || return 1
    [ "$(sed -n 1p "$1/libcrpd.proved")" = "$(sha256sum <"$1/libcrpd.a")" ] || return 1
    sed -n 2p "$1/libcrpd.proved"
}
