#!/usr/bin/env bash
# Compares `sst calls` with a C++ program over RocksDB's SstFileReader, on the same file and the same call lines.
#
#   bash bench/reads.sh [ROUNDS]        5 rounds where no number is given
#
# The file has 200,000 entries of 16-byte keys and 100-byte values, in data blocks of 4096 bytes. What is timed: opening it
# and `first`, twenty times; and once the same with 100,000 Gets of keys of the file, in an order without pattern. In each
# round both programs run, one after the other, and of each the least user and system time counts. What is printed are
# ratios.
#
# What it needs beside `sst`: g++, RocksDB's headers and library (Debian: librocksdb-dev), GNU time, and 100 MB of room in
# TMPDIR. Where one is missing it says so, and ends with status 0.
set -u
cd "$(dirname "${BASH_SOURCE[0]}")/.." || exit 1
root=$PWD
rounds=${1:-5}
count=200000
gets=100000

skip() {
    printf 'skipped: %s\n' "$1"
    exit 0
}

die() {
    printf 'bench/reads.sh: %s\n' "$1" >&2
    exit 1
}

case $rounds in
    '' | *[!0-9]* | 0) die 'ROUNDS is a number from 1 on' ;;
esac
command -v g++ >/dev/null || skip 'no g++'
/usr/bin/time -f '%U %S' true >/dev/null 2>&1 || skip 'no GNU time as /usr/bin/time'

room=$(mktemp -d) || exit 1
trap 'rm -rf "$room"' EXIT

g++ -x c++ -std=c++17 -fsyntax-only - <<<'#include <rocksdb/sst_file_reader.h>' 2>/dev/null ||
    skip 'no header rocksdb/sst_file_reader.h (Debian: librocksdb-dev)'
g++ -std=c++17 -O2 -o "$room/theirs" bench/sst_file_reader.cc -lrocksdb 2>"$room/compiler" || {
    grep -q 'cannot find -lrocksdb' "$room/compiler" && skip 'no library rocksdb (Debian: librocksdb-dev)'
    cat "$room/compiler" >&2
    die 'sst_file_reader.cc was not compiled'
}

awk -v count="$count" 'BEGIN {
    value = ""
    for (i = 0; i < 100; i++) value = value sprintf("%02x", (i * 37) % 256)
    for (i = 1; i <= count; i++) printf "%032x 0 P %s\n", i * 7, value
}' | (cd "$room" && "$root/sst" write block file.sst) >/dev/null || die 'the file was not written'
ours=$root/crates/sst/out/sst

printf 'first\n' >"$room/open"
awk -v count="$count" -v gets="$gets" 'BEGIN {
    print "first"
    at = 0
    for (i = 0; i < gets; i++) {
        at = (at + 61803) % count
        printf "get %032x 2000\n", (at + 1) * 7
    }
}' >"$room/gets"

# often TIMES CALLS ANSWERS COMMAND..: runs a command so many times on a list of calls.
often() {
    local times=$1 calls=$2 answers=$3
    shift 3
    for _ in $(seq "$times"); do "$@" <"$calls" >"$answers" || return 1; done
}
export -f often

# timed NAME COMMAND..: runs a command on each list of calls, and adds lines of seconds to the results.
timed() {
    local name=$1 calls times
    shift
    for calls in open gets; do
        times=1
        [ "$calls" = gets ] || times=20
        /usr/bin/time -o "$room/time" -f '%U %S' bash -c 'often "$@"' often \
            "$times" "$room/$calls" "$room/answers.$name.$calls" "$@" || die "$name failed"
        printf '%s %s %s\n' "$name" "$calls" "$(tail -n 1 "$room/time")" >>"$room/results"
    done
}

for _ in $(seq "$rounds"); do
    timed ours "$ours" calls "$room/file.sst"
    timed theirs "$room/theirs" "$room/file.sst"
done
# the values that both show are the same
awk '{ print $4 }' "$room/answers.ours.gets" | cmp - "$room/answers.theirs.gets" >&2 || die 'the answers differ'

awk '{ t = $3 + $4; if (!(($1, $2) in least) || t < least[$1, $2]) least[$1, $2] = t }
    END {
        printf "open and first, ours to theirs: %.1f\n", least["ours", "open"] / least["theirs", "open"]
        printf "with 100,000 Gets, ours to theirs: %.2f\n", least["ours", "gets"] / least["theirs", "gets"]
    }' "$room/results"
