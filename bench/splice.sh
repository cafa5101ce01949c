#!/usr/bin/env bash
# Joins a stream of half an hour of cues of two lines, one every four seconds, with itself by `splice`, beside `check` of the same stream,
# and `cat` of what was written: bytes (of the stream, and written), the best of 5 runs by processor time and by the clock, megabytes a
# second by the clock, and the most memory. `splice` reads two streams as `check` does one, and writes both: goal: 1.5 times the
# processor time of `check` of both.
set -e
cd "$(dirname "${BASH_SOURCE[0]}")/.."
mkdir -p bench/out
# shellcheck source=bench/common.sh
. bench/common.sh
made dvbsub dvbsub_tools
# Five records, and 450 cues whose texts have two lines. A stream of an hour is longer than `splice` takes.
python3 bench/scripts.py hour | awk 'NR <= 905' >bench/out/script.csv
program=./crates/dvbsub/out/dvbsub
"$program" compile sd 256 1 bench/out/script.csv examples/subtitle.bdf bench/out/half.ts >/dev/null
spent() {
    read -r _ processor clock memory < <(python3 bench/best.py 5 "${@:3}")
    echo "$1 $processor $clock $memory $(stat -c %s "$2")" |
        awk '{ printf "%s: %d bytes, %.1f ms of processor time, %.1f ms by the clock, %.0f megabytes a second, %d kB\n", $1, $5, 1000 * $2, 1000 * $3, $5 / $3 / 1e6, $4 }'
    taken[$1]=$processor
}
declare -A taken
spent check bench/out/half.ts "$program" check sd 0 256 1 bench/out/half.ts bench/out/levels.txt
spent splice bench/out/whole.ts ./crates/dvbsub_tools/out/dvbsub_tools splice sd 256 1 0 170000000 bench/out/half.ts bench/out/half.ts bench/out/whole.ts
spent cat bench/out/whole.ts cat bench/out/whole.ts
awk -v check="${taken[check]}" -v splice="${taken[splice]}" 'BEGIN { printf "splice: %.2f times the time of check of both\n", splice / (2 * check) }'
rm bench/out/script.csv bench/out/half.ts bench/out/whole.ts bench/out/levels.txt
