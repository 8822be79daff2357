#!/bin/sh
# Builds the comparison, runs it, and shows that it would find each error that looks reasonable: with
# the error built into the model, the made-up tables have to show a mismatch. Takes the words of
# build.sh, and --longest TICKS for the comparison. The last line counts what passed and failed.
set -u

here=$(cd "$(dirname "$0")" && pwd -P)
out=$(dirname "$here")/target/compare
library=''
values=''
longest=''
stand_in=''
while [ $# -gt 0 ]; do
    case $1 in
    --stand-in) stand_in=$1 ;;
    --library | --values | --longest | --out)
        [ $# -ge 2 ] || { printf 'compare: %s needs a value\n' "$1" >&2; exit 2; }
        case $1 in
        --library) library=$2 ;;
        --values) values=$2 ;;
        --longest) longest=$2 ;;
        --out) out=$2 ;;
        esac
        shift
        ;;
    *)
        printf 'usage: run.sh [--library FILE] [--values FILE] [--stand-in] [--out FOLDER] [--longest TICKS]\n' >&2
        exit 2
        ;;
    esac
    shift
done
"$here/build.sh" --out "$out" ${library:+--library "$library"} ${values:+--values "$values"} \
    ${stand_in:+"$stand_in"} || exit 2

log=$out/compare.log
compare() { "$out/compare" ${longest:+--longest "$longest"} "$@" >"$log" 2>&1; }

compare
status=$?
cat "$log"
last=$(tail -n 1 "$log")
case $last in
[0-9]*' passed, '[0-9]*' failed') ;;
*)
    printf 'compare: the comparison ended with status %s\n' "$status" >&2
    exit 2
    ;;
esac
passed=${last%% passed*}
failed=${last##*, }
failed=${failed% failed}

# Whether a group of the comparison ($1) shows the error ($2) in three of a hundred of the texts, or in so many ($3).
find_error() {
    compare --error "$2" --percent "${3:-3}"
    status=$?
    if [ "$status" = 1 ] && grep -q "^mismatch: $1: " "$log"; then
        printf 'error %s is found: %s\n' "$2" "$(sed -n "s/^ *\(.* of: $1, .* DIFFER\)\$/\1/p" "$log")"
        passed=$((passed + 1))
    else
        printf 'error %s is NOT found (status %s)\n' "$2" "$status"
        failed=$((failed + 1))
    fi
}

for error in 1 2 3 4 5 5b 6 23 24 25 26 27 28 29 30 31 32 33 34 35 36 46 47 83 84 85 86 87; do
    find_error 'valid texts' "$error"
done
for error in 7 8 9 10 11 12 13 37 38 39 40 41 53; do
    find_error explanations "$error"
done
for error in 42 43 44 45 48 88 89 90 92 93 97; do
    find_error 'texts spoiled for a known reason' "$error"
done
find_error 'texts spoiled for a known reason' 91 10
for error in 14 15 16 17 18 49 94 95; do
    find_error 'tables written again' "$error"
done
for error in 19 20 21 50 51 52 96; do
    find_error 'table values' "$error"
done
find_error 'table values into buffers of every length' 22
for error in 54 55 56 57 58 59 60 61 62 63 64 65 66 67 68 71; do
    find_error growths "$error"
done
for error in 69 70 72; do
    find_error 'scaled tables' "$error"
done
for error in 73 82; do
    find_error 'reports of a worker that had other tables before' "$error"
done
for error in 74 75 76 77 78 79 80 81; do
    find_error 'sums and unions in any order' "$error"
done
for error in 98 99 100 102; do
    find_error 'tables with a task line more' "$error"
done
find_error 'methods beside each other' 101
for error in 103 104; do
    find_error 'tables with lines changed that do not matter' "$error"
done
for error in 105 106 107 111 112 113 114 115 116 117 118 123; do
    find_error "bounds of partners' lists" "$error"
done
for error in 108 109 110 119 120 121 122; do
    find_error 'lists spoiled for a known reason' "$error"
done
for error in 124 125 126 127 128 129 130 131 132 133 134 135 138 140 141; do
    find_error 'verdicts by deadlines' "$error" 10
done
for error in 136 137 139; do
    find_error 'tables refused by deadlines for a known reason' "$error" 10
done
for error in 142 143 144 145 146 147 148 149 150 153 154; do
    find_error 'replays tick by tick' "$error" 10
done
for error in 151 152; do
    find_error 'replays refused for a known reason' "$error" 10
done
printf '%s passed, %s failed\n' "$passed" "$failed"
[ "$failed" = 0 ]
