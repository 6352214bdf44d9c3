#!/usr/bin/env bash
# Compares `sst write block` with a C++ program over RocksDB's SstFileWriter, on the same entry lines.
#
#   bash bench/run.sh [ROUNDS]        5 rounds where no number is given
#
# The lists have 350,000, 700,000 and 1,400,000 entries of 16-byte keys and 100-byte values; the last one is near
# the limit of what a list weighs. Data blocks have 4096 bytes or a little more. In each round every list is written by both programs, one after the other. Of
# each program and list the least user and system time counts, and the greatest peak memory. What is printed are
# ratios: they say more than times, of a machine that does other work. Blocks of other bytes than RocksDB's are a
# failure, status 1, and so is a peak memory of more than four times the file.
#
# What it needs beside `sst`: g++, RocksDB's headers and library (Debian: librocksdb-dev), GNU time, and 1 GB of
# room in TMPDIR. Where one is missing it says so, and ends with status 0.
set -u
cd "$(dirname "${BASH_SOURCE[0]}")/.." || exit 1
root=$PWD
rounds=${1:-5}
counts='350000 700000 1400000'
block=4096

skip() {
    printf 'skipped: %s\n' "$1"
    exit 0
}

die() {
    printf 'bench/run.sh: %s\n' "$1" >&2
    exit 1
}

case $rounds in
    '' | *[!0-9]* | 0) die 'ROUNDS is a number from 1 on' ;;
esac
command -v g++ >/dev/null || skip 'no g++'
/usr/bin/time -f '%U %S %M' true >/dev/null 2>&1 || skip 'no GNU time as /usr/bin/time'

room=$(mktemp -d) || exit 1
trap 'rm -rf "$room"' EXIT

g++ -x c++ -std=c++17 -fsyntax-only - <<<'#include <rocksdb/sst_file_writer.h>' 2>/dev/null ||
    skip "no header rocksdb/sst_file_writer.h (Debian: librocksdb-dev)"
g++ -std=c++17 -O2 -o "$room/theirs" bench/sst_file_writer.cc -lrocksdb 2>"$room/compiler" || {
    grep -q 'cannot find -lrocksdb' "$room/compiler" && skip 'no library rocksdb (Debian: librocksdb-dev)'
    cat "$room/compiler" >&2
    die 'sst_file_writer.cc was not compiled'
}

# The first run builds the program where it has to be built.
printf '00 0 P 00\n' | (cd "$room" && "$root/sst" write block first) >/dev/null || die 'sst was not built'
ours=$root/crates/sst/out/sst

# list COUNT: so many entry lines. A key is its number in eight bytes, the highest first, and eight bytes of the
# pool; a value is 100 bytes of the pool. The pool is 4 KiB from a linear congruential generator.
list() {
    awk -v count="$1" 'BEGIN {
        state = 1
        pool = ""
        for (i = 0; i < 2048; i++) {
            state = (state * 25173 + 13849) % 65536
            pool = pool sprintf("%04x", state)
        }
        for (i = 1; i <= count; i++) {
            at = (i * 74) % 7990
            printf "%016x%s 0 P %s\n", i, substr(pool, 1 + (i * 38) % 8170, 16), substr(pool, 1 + at, 200)
        }
    }'
}

# measured NAME COUNT COMMAND..: runs a command on the list, and adds a line with its name, the count, its user and
# system seconds and its peak memory in KiB to the results.
measured() {
    local name=$1 count=$2 text
    shift 2
    text=$(/usr/bin/time -o "$room/time" -f '%U %S %M' "$@" <"$room/list.$count") || die "$name failed: $text"
    [ "$text" = "wrote $count" ] || die "$name printed: $text"
    printf '%s %s %s\n' "$name" "$count" "$(tail -n 1 "$room/time")" >>"$room/results"
}

for count in $counts; do
    list "$count" >"$room/list.$count" || die 'the list was not made'
done
for round in $(seq "$rounds"); do
    for count in $counts; do
        rm -f "$room/ours.sst" "$room/theirs.sst"
        measured ours "$count" "$ours" write block "$room/ours.sst" "block=$block"
        measured theirs "$count" "$room/theirs" "$room/theirs.sst" "$block"
        printf 'size %s %s %s\n' "$count" "$(stat -c %s "$room/ours.sst")" "$(stat -c %s "$room/theirs.sst")" \
            >>"$room/results"
    done
    printf 'round %s of %s\n' "$round" "$rounds" >&2
done

# Up to the index the two last files are the same: the data blocks, each with its trailer. Where the index block of ours begins,
# the footer says by the second of its handles, which are read by their bytes here.
same=$(tail -c 53 "$room/ours.sst" | od -An -v -tu1 -w53 | awk '
    function number(    v, m) { v = 0; m = 1; while ($at >= 128) { v += ($at - 128) * m; m *= 128; at++ } v += $at * m; at++; return v }
    { at = 2; number(); number(); print number() }')
cmp -n "$same" "$room/ours.sst" "$room/theirs.sst" >&2 || die 'the data blocks differ'
printf 'the data blocks are the same bytes\n'

# The last file is the largest. RocksDB's own tool reads it whole and checks its checksums, where it is there.
if command -v sst_dump >/dev/null; then
    sst_dump --file="$room/ours.sst" --command=verify >"$room/verify" 2>&1 && grep -q 'The file is ok' "$room/verify" ||
        die "sst_dump does not verify the file: $(tail -n 1 "$room/verify")"
    printf 'sst_dump verifies the largest file\n'
fi

awk '
    $1 == "size" { size["ours", $2] = $3; size["theirs", $2] = $4; next }
    {
        time = $3 + $4
        if (!(($1, $2) in best) || time < best[$1, $2]) best[$1, $2] = time
        if ($5 > peak[$1, $2]) peak[$1, $2] = $5
        if (!($2 in seen)) { seen[$2] = 1; order[++n] = $2 }
    }
    END {
        print "| entries | time, ours to theirs | time an entry, to that of the first list: ours | theirs |" \
            " peak memory to the file: ours | theirs | size of the file, ours to theirs |"
        print "|---|---|---|---|---|---|---|"
        for (i = 1; i <= n; i++) {
            c = order[i]
            printf "| %d | %.2f | %.2f | %.2f | %.2f | %.2f | %.5f |\n", c,
                best["ours", c] / best["theirs", c],
                best["ours", c] / c * order[1] / best["ours", order[1]],
                best["theirs", c] / c * order[1] / best["theirs", order[1]],
                peak["ours", c] * 1024 / size["ours", c],
                peak["theirs", c] * 1024 / size["theirs", c],
                size["ours", c] / size["theirs", c]
        }
    }
' "$room/results"
awk '
    $1 == "size" { size[$2] = $3 }
    $1 == "ours" && $5 > peak[$2] { peak[$2] = $5 }
    END { for (c in size) if (peak[c] * 1024 > 4 * size[c]) exit 1 }
' "$room/results" || die 'peak memory is more than four times the file'
printf 'peak memory is at most four times the file\n'
