#!/usr/bin/env bash
# Compares `sst scan` with RocksDB's `sst_dump --command=scan --output_hex`, on the same file; and the making and the reading of a
# file of version 4 with an index in parts with those of a plain one.
#
#   bash bench/scan.sh [ROUNDS]        5 rounds where no number is given
#
# The file has 1,000,000 entries of 16-byte keys and 100-byte values, written by `sst write block` without options. In each
# round both programs list it to /dev/null, one after the other, and then answer for twenty keys of it, each in a run of its
# own: `sst get` and `sst_dump` from the key to the next. Then `sst` writes the list plainly and with `version=4 parts=1024`, and
# answers 500,000 Gets from each of the two files. Of each program the least user and system time counts. What is printed are
# ratios. That both list what was written is compared once. `scan` takes at most half of the time of sst_dump, and writing in parts
# at most 1.1 of that of writing plainly, or it is a failure, status 1.
#
# What it needs beside `sst`: sst_dump (Debian: rocksdb-tools), GNU time, and 1 GB of room in TMPDIR. Where one is missing it
# says so, and ends with status 0.
set -u
cd "$(dirname "${BASH_SOURCE[0]}")/.." || exit 1
root=$PWD
export LC_ALL=C
rounds=${1:-5}
count=1000000

skip() {
    printf 'skipped: %s\n' "$1"
    exit 0
}

die() {
    printf 'bench/scan.sh: %s\n' "$1" >&2
    exit 1
}

case $rounds in
    '' | *[!0-9]* | 0) die 'ROUNDS is a number from 1 on' ;;
esac
command -v sst_dump >/dev/null || skip 'no sst_dump (Debian: rocksdb-tools)'
/usr/bin/time -f '%U %S' true >/dev/null 2>&1 || skip 'no GNU time as /usr/bin/time'

room=$(mktemp -d) || exit 1
trap 'rm -rf "$room"' EXIT

# The numbers 7, 14, 21, .. as keys, and values that differ.
awk -v count="$count" 'BEGIN {
    value = ""
    for (i = 0; i < 200; i++) value = value sprintf("%02x", (i * 37) % 256)
    for (i = 1; i <= count; i++) printf "%032x %d P %s\n", i * 7, i % 1000 + 1, substr(value, 1 + i % 100 * 2, 200)
}' >"$room/list" || die 'the list was not made'
(cd "$room" && "$root/sst" write block file.sst <list) >/dev/null || die 'the file was not written'
(cd "$room" && "$root/sst" write block parts.sst version=4 parts=1024 <list) >/dev/null || die 'the file in parts was not written'
ours=$root/crates/sst/out/sst
file=$room/file.sst
awk -v count="$count" 'BEGIN {
    for (i = 0; i < 500000; i++) {
        at = (at + 61803) % count
        printf "get %032x 2000\n", (at + 1) * 7
    }
}' >"$room/calls"

# Both list the entries that were written.
"$ours" scan "$file" | cmp - "$room/list" >&2 || die 'sst lists other entries'
"$ours" scan "$room/parts.sst" | cmp - "$room/list" >&2 || die 'sst lists other entries of the file in parts'
sst_dump --file="$file" --command=scan --output_hex 2>/dev/null |
    sed -n "s/^'\([0-9A-F]*\)' seq:\([0-9]*\), type:1 => /\1 \2 P /p" | tr A-F a-f | sed 's/ p / P /' |
    cmp - "$room/list" >&2 || die 'sst_dump lists other entries'

# gets COMMAND: each of twenty keys, in a run of its own.
gets() {
    local i from to
    for ((i = 1; i <= 20; i++)); do
        printf -v from '%032x' $((i * 49999 * 7))
        printf -v to '%032x' $((i * 49999 * 7 + 7))
        "$1" "$from" "$to" || return 1
    done
}
our_get() { "$ours" get "$file" "$1" 2000; }
their_get() { sst_dump --file="$file" --command=scan --output_hex --input_key_hex --from="0x$1" --to="0x$2" 2>/dev/null; }
export -f gets our_get their_get
export ours file room

# timed PROGRAM WHAT COMMAND..: runs a command, and adds a line of its user and system seconds to the results.
timed() {
    local name="$1 $2"
    shift 2
    /usr/bin/time -o "$room/time" -f '%U %S' "$@" >"$room/answers" 2>"$room/messages" || die "$name failed"
    printf '%s %s\n' "$name" "$(tail -n 1 "$room/time")" >>"$room/results"
}

for _ in $(seq "$rounds"); do
    timed ours scan bash -c '"$ours" scan "$file" >/dev/null'
    timed theirs scan bash -c 'sst_dump --file="$file" --command=scan --output_hex >/dev/null'
    timed ours gets bash -c 'gets our_get'
    [ "$(grep -c ' P ' "$room/answers")" = 20 ] || die 'an answer is missing'
    timed theirs gets bash -c 'gets their_get'
    [ "$(grep -c ' seq:' "$room/answers")" = 20 ] || die 'an answer of sst_dump is missing'
    timed ours plain bash -c '"$ours" write block "$room/made.sst" <"$room/list"'
    timed ours parts bash -c '"$ours" write block "$room/made.sst" version=4 parts=1024 <"$room/list"'
    timed ours plain-gets bash -c '"$ours" calls "$file" <"$room/calls"'
    [ "$(grep -c ' P ' "$room/answers")" = 500000 ] || die 'an answer is missing'
    timed ours parts-gets bash -c '"$ours" calls "$room/parts.sst" <"$room/calls"'
    [ "$(grep -c ' P ' "$room/answers")" = 500000 ] || die 'an answer from the file in parts is missing'
done

awk '{ t = $3 + $4; if (!(($1, $2) in least) || t < least[$1, $2]) least[$1, $2] = t }
    END {
        scan = least["ours", "scan"] / least["theirs", "scan"]
        written = least["ours", "parts"] / least["ours", "plain"]
        printf "scan of 1,000,000 entries, ours to theirs: %.2f\n", scan
        printf "twenty Gets, each in a run of its own, ours to theirs: %.1f\n", least["ours", "gets"] / least["theirs", "gets"]
        printf "writing them with version=4 parts=1024, to writing them plainly: %.2f\n", written
        printf "500,000 Gets from that file, to as many from the plain one: %.2f\n", least["ours", "parts-gets"] / least["ours", "plain-gets"]
        exit scan > 0.5 || written > 1.1
    }' "$room/results" || die 'scan or writing in parts takes too long'
