# shellcheck shell=sh
# Sourced by the scripts that build or run x86-64 programs: the proved library is for x86-64 alone. On an x86-64 machine the machine's own
# tools serve; on another one Debian's cross tools are installed where they are missing, and programs run under an emulator.
# It sets: rustc and rust_flags, cc and cc_flags, emulator (empty on x86-64). A script that must not end with 2 where something is missing
# sets bad.

x86_target=x86_64-unknown-linux-gnu

x86_die() {
    printf '%s: %s\n' "$(basename "$0")" "$*" >&2
    exit "${bad:-2}"
}

# Debian's packages, quietly.
x86_install() {
    printf '%s: installing %s\n' "$(basename "$0")" "$*" >&2
    x86_log=$(mktemp)
    if ! {
        dpkg --print-foreign-architectures | grep -qx amd64 || dpkg --add-architecture amd64
        apt-get update -qq
        DEBIAN_FRONTEND=noninteractive apt-get install -y -qq --no-install-recommends "$@"
    } >"$x86_log" 2>&1; then
        tail -n 5 "$x86_log" >&2
        rm -f "$x86_log"
        x86_die "cannot install $*"
    fi
    rm -f "$x86_log"
}

# The first Rust compiler that has the standard library for x86-64.
x86_find_rustc() {
    for rustc in rustc /usr/bin/rustc; do
        x86_libraries=$("$rustc" --print target-libdir --target "$x86_target" 2>/dev/null) || continue
        for x86_file in "$x86_libraries"/libstd-*.rlib; do
            [ -e "$x86_file" ] && return 0
        done
    done
    return 1
}

# The emulator named in EMULATOR, or an installed one. The kit's own ends at the start of any Rust program, where that reads its memory map.
x86_find_emulator() {
    emulator=${EMULATOR:-$(command -v qemu-x86_64)}
    [ -n "$emulator" ]
}

# Finds the tools for Rust and C; $1 is a folder for what the linker needs.
x86_tools() {
    emulator=''
    rust_flags="--edition 2021 --target $x86_target -C opt-level=3 -C codegen-units=1"
    cc=cc
    cc_flags=-O2
    if [ "$(uname -m)" = x86_64 ]; then
        x86_find_rustc || x86_die 'rustc is missing'
        return
    fi
    x86_find_rustc || x86_install rustc libstd-rust-dev:amd64
    x86_find_rustc || x86_die "no Rust compiler with the standard library for $x86_target"
    cc=x86_64-linux-gnu-gcc
    x86_cross=/usr/x86_64-linux-gnu/lib
    { command -v "$cc" >/dev/null && [ -e "$x86_cross/libc.a" ]; } ||
        x86_install gcc-x86-64-linux-gnu libc6-dev-amd64-cross
    x86_find_emulator || x86_install qemu-user
    x86_find_emulator || x86_die 'no emulator'
    # a static program needs no x86-64 loader here; Debian's libm.a is a script that names files of another folder
    cc_flags='-O2 -static'
    mkdir -p "$1"
    for x86_file in "$x86_cross"/libm-*.a; do ln -sf "$x86_file" "$1/libm.a"; done
    rust_flags="$rust_flags -C linker=$cc -C target-feature=+crt-static -C relocation-model=static -L native=$1"
}
