#!/usr/bin/env bash
# Compares `sst calls` on a file whose rows share 60,000 bytes of key each with one whose rows share 200.
#
#   bash bench/harm.sh [ROUNDS]        5 rounds where no number is given
#
# Each file has one data block of 1,000,000 rows, which take 13 or 14 bytes; the last one is out of order. So the block is
# checked to its end, and then the damage is named: no entry is made of its rows, whose keys would take 60 GB in one file. In
# each round both files are asked, one after the other, and of each the least user and system time counts. A block is
# checked in a time linear in its bytes, whatever its rows share; so the ratio is near 1, and one above 3 is a failure,
# status 1.
#
# What it needs beside `sst`: python3, and 40 MB of room in TMPDIR. Without python3 it says so, and ends with status 0.
set -u
cd "$(dirname "${BASH_SOURCE[0]}")/.." || exit 1
root=$PWD
rounds=${1:-5}
rows=1000000
fronts='200 60000'

die() {
    printf 'bench/harm.sh: %s\n' "$1" >&2
    exit 1
}

case $rounds in
    '' | *[!0-9]* | 0) die 'ROUNDS is a number from 1 on' ;;
esac
command -v python3 >/dev/null || {
    printf 'skipped: no python3\n'
    exit 0
}

room=$(mktemp -d) || exit 1
trap 'rm -rf "$room"' EXIT

# file FRONT: a file of one data block, by docs/FORMATS.md. The key of a row is FRONT times `k`, the number of the row in
# four bytes, and a tag; the last row has number 0 again. There are no properties.
file() {
    python3 - "$1" "$rows" <<'END'
import sys

front, rows = int(sys.argv[1]), int(sys.argv[2])
tag = (256 + 1).to_bytes(8, "little")
table = []
for c in range(256):
    for _ in range(8):
        c = c >> 1 ^ (0x82F63B78 if c & 1 else 0)
    table.append(c)


def varint(v):
    high = b""
    while v >= 128:
        high += bytes([v & 127 | 128])
        v >>= 7
    return high + bytes([v])


def framed(block):
    block += b"\0"
    c = 0xFFFFFFFF
    for byte in block:
        c = table[(c ^ byte) & 255] ^ c >> 8
    c ^= 0xFFFFFFFF
    return block + (((c >> 15 | c << 17) + 0xA282EAD8) & 0xFFFFFFFF).to_bytes(4, "little")


def block(spelled):
    return spelled + (0).to_bytes(4, "little") + (1).to_bytes(4, "little")


def row(shared, rest, value=b""):
    return varint(shared) + varint(len(rest)) + varint(len(value)) + rest + value


spelled = [row(0, b"k" * front + bytes(4) + tag)]
last = bytes(4)
for i in range(1, rows):
    number = (i if i + 1 < rows else 0).to_bytes(4, "big")
    same = next(j for j in range(4) if number[j] != last[j])
    spelled.append(row(front + same, number[same:] + tag))
    last = number
data = block(b"".join(spelled))
index = block(row(0, b"z" + tag, varint(0) + varint(len(data))))
meta = block(b"")
place = len(data) + 5
ends = varint(place + len(index) + 5) + varint(len(meta)) + varint(place) + varint(len(index))
footer = b"\1" + ends.ljust(40, b"\0") + (2).to_bytes(4, "little") + 0x88E241B785F4CFF7.to_bytes(8, "little")
sys.stdout.buffer.write(framed(data) + framed(index) + framed(meta) + footer)
END
}

for front in $fronts; do
    file "$front" >"$room/$front.sst" || die 'a file was not made'
done
printf 'first\n' >"$room/calls"
(cd "$room" && "$root/sst" calls 200.sst <calls) >/dev/null
sst=$root/crates/sst/out/sst
[ -x "$sst" ] || die 'there is no program'

TIMEFORMAT='%3U %3S'
for _ in $(seq "$rounds"); do
    for front in $fronts; do
        taken=$({ time (cd "$room" && "$sst" calls "$front.sst" <calls >answer); } 2>&1)
        grep -q '^damage disorder 0 ' "$room/answer" || die 'the last row was not found out of order'
        printf '%s %s\n' "$front" "$taken" >>"$room/results"
    done
done

awk '{ t = $2 + $3; if (!($1 in least) || t < least[$1]) least[$1] = t }
    END {
        ratio = least[60000] / least[200]
        printf "1,000,000 rows that share 60,000 bytes each, to as many that share 200: %.2f\n", ratio
        exit ratio > 3
    }' "$room/results"
