#!/usr/bin/env bash
# Lists a stream of which one packet in eight is of the PID, and reads the same file by `cat`: the best of 30 runs of each by
# processor time and by the clock, megabytes a second by the clock, and the speed of `list` beside that of `cat`, by processor
# time; then how the list begins. Each unit has 16 packets and a page, a region and 16 other segments. The first argument is the size of the stream in megabytes, 256 where there is none.
set -e
cd "$(dirname "${BASH_SOURCE[0]}")/.."
mkdir -p bench/out
# shellcheck source=bench/common.sh
. bench/common.sh
made dvbsub
python3 - "${1:-256}" bench/out/stream.ts <<'PYTHON'
import struct, sys
size, path = int(sys.argv[1]) * 1000000, sys.argv[2]
null = bytes([0x47, 0x1F, 0xFF, 0x10]) + b"\xff" * 184

def segment(kind, body):
    return struct.pack(">BBHH", 0x0F, kind, 1, len(body)) + body

def unit(pts, length):
    field = b"\x20\x00" + segment(0x10, b"\x0a\x08" + bytes([1, 0, 0, 0, 0, 0])) + segment(0x11, bytes([1, 8, 0, 16, 0, 16, 0x24, 0, 0, 0]))
    left = length - 14 - len(field) - 1
    for place in range(16):
        body = left // 16 - 6 + (left % 16 if place == 15 else 0)
        field += segment(0xFF, bytes(body))
    field += b"\xff"
    time = bytes([0x21 | pts >> 29 & 0x0E]) + struct.pack(">HH", pts >> 14 & 0xFFFE | 1, pts << 1 & 0xFFFE | 1)
    return b"\x00\x00\x01\xbd" + struct.pack(">H", 8 + len(field)) + b"\x84\x80\x05" + time + field

count = size // 188
with open(path, "wb") as stream:
    place = number = 0
    while place + 128 <= count:
        bytes_of_unit = unit(90000 + 3600 * (number % 1000000), 16 * 184)
        group = []
        for piece in range(16):
            head = bytes([0x47, 0x41 if piece == 0 else 0x01, 0x00, 0x10 + piece])
            group.append(head + bytes_of_unit[184 * piece : 184 * piece + 184] + null * 7)
        stream.write(b"".join(group))
        place += 128
        number += 1
PYTHON
best() {
    local name=$1 processor clock
    read -r _ processor clock _ < <(python3 bench/best.py 30 "${@:2}")
    echo "$name $(stat -c %s bench/out/stream.ts) $processor $clock" |
        awk '{ printf "%s: %d bytes, %.1f ms of processor time, %.1f ms by the clock, %.0f megabytes a second\n", $1, $2, 1000 * $3, 1000 * $4, $2 / $4 / 1e6 }'
    spent[$name]=$processor
}
declare -A spent
cat bench/out/stream.ts >/dev/null
best cat cat bench/out/stream.ts
best list ./crates/dvbsub/out/dvbsub list 256 bench/out/stream.ts bench/out/list.txt
awk -v cat="${spent[cat]}" -v list="${spent[list]}" 'BEGIN { printf "list: %.2f of cat\n", cat / list }'
head -n 4 bench/out/list.txt
wc -l bench/out/list.txt
rm bench/out/stream.ts bench/out/list.txt
