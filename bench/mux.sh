#!/usr/bin/env bash
# Joins two streams by `mux` and takes one out again by `take`, and reads the same files by `cat`: the best of 15 runs of each, by
# processor time and by the clock, and the most memory. The first argument is the size of each stream in megabytes, 100 where there
# is none. Goals, by processor time: `mux` at half of `cat` of what it writes or better, `take` at 0.7 of `cat` of what it reads or
# better.
set -e
cd "$(dirname "${BASH_SOURCE[0]}")/.."
mkdir -p bench/out
# shellcheck source=bench/common.sh
. bench/common.sh
made dvbsub_tools
python3 - "${1:-100}" bench/out/eng.ts bench/out/fre.ts <<'PYTHON'
import sys
count = int(sys.argv[1]) * 1000000 // 188
null = bytes([0x47, 0x1F, 0xFF, 0x10]) + b"\xff" * 184
for path, pid in zip(sys.argv[2:], (256, 257)):
    with open(path, "wb") as stream:
        for place in range(0, count, 16):
            packets = [bytes([0x47, pid >> 8, pid & 255, 0x10 + turn]) + bytes(184) if turn % 4 == 0 else null for turn in range(16)]
            stream.write(b"".join(packets[: count - place]))
PYTHON
spent() {
    read -r _ processor clock memory < <(python3 bench/best.py 15 "${@:2}")
    echo "$1 $processor $clock $memory" |
        awk '{ printf "%s: %.1f ms of processor time, %.1f ms by the clock, %d kB\n", $1, 1000 * $2, 1000 * $3, $4 }'
    taken[$1]=$processor
}
declare -A taken
tools=./crates/dvbsub_tools/out/dvbsub_tools
spent mux $tools mux 1 100 256 1 eng 2 101 257 1 fre bench/out/eng.ts bench/out/fre.ts bench/out/both.ts
cat bench/out/both.ts >/dev/null
cp bench/out/both.ts bench/out/copy.ts
spent cat_to_file sh -c 'cat bench/out/both.ts >bench/out/copy.ts'
spent cat cat bench/out/both.ts
spent take $tools take 1 bench/out/both.ts bench/out/one.ts
awk -v cat="${taken[cat_to_file]}" -v mux="${taken[mux]}" 'BEGIN { printf "mux: %.2f of cat of what it writes\n", cat / mux }'
awk -v cat="${taken[cat]}" -v take="${taken[take]}" 'BEGIN { printf "take: %.2f of cat of what it reads\n", cat / take }'
rm bench/out/eng.ts bench/out/fre.ts bench/out/both.ts bench/out/copy.ts bench/out/one.ts
