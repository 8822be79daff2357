# shellcheck shell=sh
# Sourced by the scripts of bin/, which have what they run proved and built the first time. Before, they set: called, the name of the
# command; root, the repository; bad, the exit status where it cannot be run. It sets RATTLE_HOME where that is not set.

die() {
    printf '%s: %s\n' "$called" "$*" >&2
    exit "$bad"
}

if [ -z "${RATTLE_HOME:-}" ]; then
    rt=$(command -v rt) || die "the toolchain's command rt is not on PATH, and RATTLE_HOME is not set"
    RATTLE_HOME=$(dirname "$(dirname "$(readlink -f "$rt")")")
fi
logs=$root/target/log
log=$logs/$called.log
ours='' # the process that proves, while there is one

# Says which proofs have begun since it last looked, by what prove.sh says.
tell() {
    opened=$(sed -n 's/^proving //p' "$log" | tr '\n' ' ')
    place=0
    for crate in $crates; do
        place=$((place + 1))
        case $told in *" $crate "*) continue ;; esac
        case " $opened" in
        *" $crate "*)
            echo "proving $place of $total: $crate" >&2
            told="$told$crate "
            ;;
        esac
    done
}

# Ends the proving and all that it started, and then the script, by the same signal.
stopped() {
    trap - INT TERM HUP
    if [ -n "$ours" ]; then
        kill -s TERM -- "${group:+-}$ours" 2>/dev/null
        wait "$ours" 2>/dev/null
        undo
    fi
    kill -s "$1" $$
}

# What a script takes back where the proving does not end well; one that has something to take back says it anew.
undo() { :; }

# Runs a command that has rt prove a crate ($1) and all that this one needs, and tells meanwhile how far it is.
prove() {
    crates=$("$root/tools/plan.sh" "$1" | sed 's/ .*//')
    shift
    # shellcheck disable=SC2086
    total=$(set -- $crates && echo $#)
    told=' '
    { mkdir -p "$logs" && : >"$log"; } || die "cannot write into $logs"
    echo "$called: proving and building the program, once; this takes some minutes. $log has what the prover says" >&2
    # rt's own children do not hear a Ctrl-C: in a group of their own they can be ended together
    group=$(command -v setsid)
    for signal in INT TERM HUP; do
        # shellcheck disable=SC2064
        trap "stopped $signal" "$signal"
    done
    (cd "$root" && exec ${group:+"$group"} "$@") </dev/null >"$log" 2>&1 &
    ours=$!
    while kill -0 "$ours" 2>/dev/null; do
        sleep 1
        tell
    done
    wait "$ours"
    status=$?
    ours=''
    trap - INT TERM HUP
    if [ "$status" -ne 0 ]; then
        undo
        # the log's end, without the lines on what was proved and what was loaded
        grep -v -e ': proved$' -e '^checked ' -e '^statements ' -e '^crate ' -e '^logic' "$log" | tail -n 20 >&2
        die "the program could not be proved and built; all that was said is in $log"
    fi
}
