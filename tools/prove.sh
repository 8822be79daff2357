#!/bin/sh
# prove.sh CRATE COMMAND..: proves and builds the libraries that a crate needs, side by side those that do not stand on one another, as many at once as there are
# processors; then runs the command in the crate's folder, and ends as it does. As rt keeps others out of the folders of all that a crate needs, each process works in a
# copy of the tree: there rt takes over what was made in another copy. What they made is moved into the tree at the end, also where a crate is refused or the proving is
# cut off.
set -eu
root=$(cd "$(dirname "$0")/.." && pwd -P)
crate=$1
shift
copies=$root/target/proving # 1, 2, ..: as many as there are processors
most=$(nproc 2>/dev/null || echo 1)
mkdir -p "$root/target"
exec 9>"$root/target/proving.lock"
flock 9 # another call would work in the same copies
state=$(mktemp -d)
mkdir "$state/busy" "$state/proved" "$state/refused" # files named as copies, and as crates; of a crate that is proved it has in which copy
"$root/tools/plan.sh" "$crate" | sed '$d' >"$state/todo" # the crate itself stands last
trap 'exit 1' INT TERM HUP
trap finish EXIT

# Moves what was made of each crate into the tree.
finish() {
    wait
    for made in "$state/proved"/*; do
        [ -e "$made" ] || continue
        name=$(basename "$made")
        mkdir -p "$root/crates/$name/out"
        for part in rlib incremental; do
            from=$copies/$(cat "$made")/crates/$name/out/$part
            [ -d "$from" ] || continue
            rm -rf "$root/crates/$name/out/$part"
            mv "$from" "$root/crates/$name/out"
        done
    done
    rm -rf "$copies" "$state"
}

# Makes a copy of the tree, with the libraries that are there.
copy_tree() {
    mkdir -p "$1"
    tar -cf - -C "$root" --exclude 'crates/*/out' crates.txt crates | tar -xf - -C "$1"
    while read -r name uses; do
        if [ -d "$root/crates/$name/out/rlib" ]; then
            mkdir "$1/crates/$name/out"
            cp -Rl "$root/crates/$name/out/rlib" "$1/crates/$name/out"
        fi
    done <"$state/todo"
}

# Whether all of these are proved.
all_proved() {
    for used in "$@"; do
        [ -e "$state/proved/$used" ] || return 1
    done
}

# How many there are of a kind.
count() {
    set -- "$state/$1"/*
    if [ -e "$1" ]; then echo $#; else echo 0; fi
}

# Proves a library in a copy, by one process: several take more of the processors, and are hardly sooner done.
prove() {
    echo "proving $2"
    if (cd "$copies/$1/crates/$2" && rt lib --jobs 1) </dev/null; then
        echo "$1" >"$state/made.$1"
        mv "$state/made.$1" "$state/proved/$2"
    else
        : >"$state/refused/$2"
    fi
    rm "$state/busy/$1"
}

rm -rf "$copies"
for copy in $(seq "$most"); do
    copy_tree "$copies/$copy"
done
while [ -s "$state/todo" ] && [ "$(count refused)" -eq 0 ]; do
    : >"$state/later"
    while read -r next uses; do
        # shellcheck disable=SC2086
        if [ "$(count busy)" -lt "$most" ] && all_proved $uses; then
            copy=1
            while [ -e "$state/busy/$copy" ]; do copy=$((copy + 1)); done
            : >"$state/busy/$copy"
            prove "$copy" "$next" &
        else
            echo "$next $uses" >>"$state/later"
        fi
    done <"$state/todo"
    mv "$state/later" "$state/todo"
    sleep 0.2
done
wait
[ "$(count refused)" -eq 0 ]
finish
trap - EXIT
exec 9>&-
echo "proving $crate"
cd "$root/crates/$crate"
exec "$@"
