#!/usr/bin/env bash
# Compares Gets of `sst` with those of an earlier build of it, on a whole index and on one of parts.
#
#   bash bench/gets.sh EARLIER [ROUNDS]        20 rounds where no number is given
#
# EARLIER is the program of an earlier commit, built there. The list has 200,000 entries of 16-byte keys and 100-byte values, in
# data blocks of 4096 bytes. It is written plainly, and with `version=4 parts=1024`. The earlier program answers from the plain
# file alone. In each round each program answers `first` on each of its files, and then 400,000 Gets of keys of the file, in an
# order without pattern; what counts is the user and system time of the second less that of the first, and of all rounds the mean.
# What is printed are ratios.
#
# What it needs beside `sst`: GNU time, and 200 MB of room in TMPDIR. Where it is missing it says so, and ends with status 0.
set -u
cd "$(dirname "${BASH_SOURCE[0]}")/.." || exit 1
root=$PWD
count=200000
gets=400000

die() {
    printf 'bench/gets.sh: %s\n' "$1" >&2
    exit 1
}

earlier=$(readlink -f "${1:-}")
[ -x "$earlier" ] || die 'EARLIER is a program'
rounds=${2:-20}
case $rounds in
    '' | *[!0-9]* | 0) die 'ROUNDS is a number from 1 on' ;;
esac
/usr/bin/time -f '%U %S' true >/dev/null 2>&1 || {
    printf 'skipped: no GNU time as /usr/bin/time\n'
    exit 0
}

room=$(mktemp -d) || exit 1
trap 'rm -rf "$room"' EXIT

awk -v count="$count" 'BEGIN {
    value = ""
    for (i = 0; i < 100; i++) value = value sprintf("%02x", (i * 37) % 256)
    for (i = 1; i <= count; i++) printf "%032x 0 P %s\n", i * 7, value
}' >"$room/list"
for words in 'whole' 'parts version=4 parts=1024'; do
    # the words are a file's name and options
    # shellcheck disable=SC2086
    (cd "$room" && "$root/sst" write block $words <list) >/dev/null || die 'a file was not written'
done
sst=$root/crates/sst/out/sst

printf 'first\n' >"$room/open"
awk -v count="$count" -v gets="$gets" 'BEGIN {
    print "first"
    at = 0
    for (i = 0; i < gets; i++) {
        at = (at + 61803) % count
        printf "get %032x 2000\n", (at + 1) * 7
    }
}' >"$room/gets"

# timed NAME PROGRAM FILE: runs a program on each list of calls, and adds lines of seconds to the results.
timed() {
    local calls
    for calls in open gets; do
        /usr/bin/time -o "$room/time" -f '%U %S' "$2" calls "$room/$3" <"$room/$calls" >"$room/answers.$1.$calls" || die "$1 failed"
        printf '%s %s %s\n' "$1" "$calls" "$(tail -n 1 "$room/time")" >>"$room/results"
    done
}

for _ in $(seq "$rounds"); do
    timed earlier "$earlier" whole
    timed whole "$sst" whole
    timed parts "$sst" parts
done
for name in whole parts; do
    cmp "$room/answers.earlier.gets" "$room/answers.$name.gets" >&2 || die 'the answers differ'
done

awk '{ sum[$1] += ($2 == "gets" ? 1 : -1) * ($3 + $4) }
    END {
        printf "Gets on a whole index, to those before: %.2f\n", sum["whole"] / sum["earlier"]
        printf "Gets on an index of parts, to those before on a whole one: %.2f\n", sum["parts"] / sum["earlier"]
    }' "$room/results"
