#!/usr/bin/env bash
# Compares 1,000,000 Gets on a file of 100,000 entries with the same number on a file of 1,000.
#
#   bash bench/calls.sh [ROUNDS]        5 rounds where no number is given
#
# Keys have 16 bytes and values 100; the Gets go to keys of the file in an order without pattern. In each round both
# files are asked, one after the other, and of each the least user and system time counts. A Get halves the list, and
# opening a file reads it once; so the ratio is a small number, and one above 6 is a failure, status 1. The answers are
# counted, and none of them is `none`.
#
# What it needs beside `sst`: GNU time, and 300 MB of room in TMPDIR. Without GNU time it says so, and ends with status 0.
set -u
cd "$(dirname "${BASH_SOURCE[0]}")/.." || exit 1
root=$PWD
rounds=${1:-5}
counts='1000 100000'
gets=1000000

die() {
    printf 'bench/calls.sh: %s\n' "$1" >&2
    exit 1
}

case $rounds in
    '' | *[!0-9]* | 0) die 'ROUNDS is a number from 1 on' ;;
esac
/usr/bin/time -f '%U %S' true >/dev/null 2>&1 || {
    printf 'skipped: no GNU time as /usr/bin/time\n'
    exit 0
}

room=$(mktemp -d) || exit 1
trap 'rm -rf "$room"' EXIT

# list COUNT: so many entry lines, with the numbers 7, 14, 21, .. as keys.
list() {
    awk -v count="$1" 'BEGIN {
        value = ""
        for (i = 0; i < 100; i++) value = value sprintf("%02x", (i * 37) % 256)
        for (i = 1; i <= count; i++) printf "%032x %d P %s\n", i * 7, i % 1000 + 1, value
    }'
}

# calls COUNT: the Gets, at a snapshot that sees every entry. The step is prime to both counts.
calls() {
    awk -v count="$1" -v gets="$gets" 'BEGIN {
        at = 0
        for (i = 0; i < gets; i++) {
            at = (at + 61803) % count
            printf "get %032x 2000\n", (at + 1) * 7
        }
    }'
}

for count in $counts; do
    list "$count" >"$room/list" || die 'the list was not made'
    (cd "$room" && "$root/sst" write block "$count.sst" <list) >/dev/null || die 'the file was not written'
    calls "$count" >"$room/calls.$count" || die 'the calls were not made'
done
sst=$root/crates/sst/out/sst

for _ in $(seq "$rounds"); do
    for count in $counts; do
        (cd "$room" && /usr/bin/time -o time -f '%U %S' "$sst" calls "$count.sst" <"calls.$count" >answers) ||
            die 'the calls were not answered'
        [ "$(grep -c ' P ' "$room/answers")" = "$gets" ] || die 'an answer is missing'
        printf '%s %s\n' "$count" "$(tail -n 1 "$room/time")" >>"$room/results"
    done
done

awk '{ t = $2 + $3; if (!($1 in least) || t < least[$1]) least[$1] = t }
    END {
        ratio = least[100000] / least[1000]
        printf "1,000,000 Gets, 100,000 entries to 1,000: %.2f\n", ratio
        exit ratio > 6
    }' "$room/results"
