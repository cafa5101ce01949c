#!/usr/bin/env bash
# Sends an hour of cues of two lines, one every four seconds, twice on one PID by `pair`, and compiles it once by `compile`: bytes written,
# the best of 5 runs by processor time and by the clock, megabytes a second by the clock, and the most memory. `pair` reads, plans and
# codes two scripts: goal: no more than 2.5 times the processor time of `compile`. The texts are pictures here, as `pair` has no font.
set -e
cd "$(dirname "${BASH_SOURCE[0]}")/.."
mkdir -p bench/out
# shellcheck source=bench/common.sh
. bench/common.sh
made dvbsub dvbsub_tools
python3 bench/scripts.py hour >bench/out/script.csv
python3 - bench/out/script.csv <<'PYTHON'
import sys
sys.path.insert(0, "checks")
import paired_streams
paired_streams.written(paired_streams.plain_rows(sys.argv[1]), sys.argv[1])
PYTHON
spent() {
    read -r _ processor clock memory < <(python3 bench/best.py 5 "${@:2}")
    echo "$1 $processor $clock $memory $(stat -c %s bench/out/stream.ts)" |
        awk '{ printf "%s: %d bytes, %.1f ms of processor time, %.1f ms by the clock, %.0f megabytes a second, %d kB\n", $1, $5, 1000 * $2, 1000 * $3, $5 / $3 / 1e6, $4 }'
    taken[$1]=$processor
}
declare -A taken
spent compile ./crates/dvbsub/out/dvbsub compile sd 256 1 bench/out/script.csv none bench/out/stream.ts
spent pair ./crates/dvbsub_tools/out/dvbsub_tools pair sd 256 1 2 3 bench/out/script.csv bench/out/script.csv bench/out/stream.ts
awk -v compile="${taken[compile]}" -v pair="${taken[pair]}" 'BEGIN { printf "pair: %.2f times the time of compile\n", pair / compile }'
rm bench/out/script.csv bench/out/stream.ts
