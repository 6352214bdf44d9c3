#!/usr/bin/env bash
# Counts the instructions that `sst write`, `sst calls` and `sst scan` take for an entry, by function.
#
#   bash bench/instructions.sh [COUNT]        20,000 entries where no number is given
#
# Keys have 16 bytes and values 100, and data blocks 4096 bytes or a little more. Each command runs under callgrind with
# COUNT entries and with twice as many; what is printed is the difference, an entry: what a run takes anyway, to start and
# to end, is left out. `calls` opens the file, and answers one Get for each entry. A function is counted without those that
# it calls; the names are those of the program as it was built, where a function may stand within its caller.
#
# What it needs beside `sst`: valgrind (with callgrind_annotate). Where it is missing it says so, and ends with status 0.
set -u
cd "$(dirname "${BASH_SOURCE[0]}")/.." || exit 1
root=$PWD
count=${1:-20000}
least=10

die() {
    printf 'bench/instructions.sh: %s\n' "$1" >&2
    exit 1
}

case $count in
    '' | *[!0-9]* | 0) die 'COUNT is a number from 1 on' ;;
esac
command -v callgrind_annotate >/dev/null || {
    printf 'skipped: no valgrind\n'
    exit 0
}

room=$(mktemp -d) || exit 1
trap 'rm -rf "$room"' EXIT

# The first run builds the program where it has to be built.
printf '00 0 P 00\n' | (cd "$room" && "$root/sst" write block first) >/dev/null || die 'sst was not built'
sst=$root/crates/sst/out/sst

# list COUNT: so many entry lines, with the numbers 7, 14, 21, .. as keys.
list() {
    awk -v count="$1" 'BEGIN {
        value = ""
        for (i = 0; i < 100; i++) value = value sprintf("%02x", (i * 37) % 256)
        for (i = 1; i <= count; i++) printf "%032x %d P %s\n", i * 7, i % 1000 + 1, value
    }'
}

# calls COUNT: a Get of each key, at a snapshot that sees every entry.
calls() {
    awk -v count="$1" 'BEGIN { for (i = 1; i <= count; i++) printf "get %032x 2000\n", i * 7 }'
}

# counted NAME INPUT WORDS..: runs the program under callgrind, and writes the file NAME: the instructions of each function.
counted() {
    local name=$1 input=$2
    shift 2
    (cd "$room" && valgrind --tool=callgrind --callgrind-out-file="$name.out" "$sst" "$@" <"$input" >answers 2>messages) ||
        die "$1 ended with another status"
    callgrind_annotate --threshold=100 --show-percs=no "$room/$name.out" 2>/dev/null |
        sed -n 's/^ *\([0-9][0-9,]*\)  *[^ ]*:\(.*\)$/\1 \2/p; s/^ *\([0-9][0-9,]*\)  *PROGRAM TOTALS.*/\1 all/p' |
        sed 's/ \[[^]]*\]$//' | awk '{ n = $1; gsub(",", "", n); $1 = ""; print n $0 }' >"$room/$name"
}

# table COMMAND: what an entry takes, by the files COMMAND.1 and COMMAND.2.
table() {
    printf '%s: instructions an entry\n' "$1"
    awk -v count="$count" -v least="$least" '
        { n = $1; $1 = ""; name = substr($0, 2) }
        FNR == NR { once[name] += n; next }
        { twice[name] += n }
        END { for (name in twice) { each = (twice[name] - once[name]) / count; if (each >= least) printf "%9.0f  %s\n", each, name } }
    ' "$room/$1.1" "$room/$1.2" | sort -rn
}

for times in 1 2; do
    list $((times * count)) >"$room/list.$times" || die 'the list was not made'
    calls $((times * count)) >"$room/calls.$times" || die 'the calls were not made'
    counted "write.$times" "list.$times" write block "$times.sst"
    counted "calls.$times" "calls.$times" calls "$times.sst"
    counted "scan.$times" /dev/null scan "$times.sst"
done
table write
table calls
table scan
