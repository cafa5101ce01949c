#!/usr/bin/env bash
# Tells the levels of an hour of cues of two lines in `sd`, with the tables of its programme and a sample of its clock every 200 packets: `levels` with a
# rate, `levels` by `pcr`, and the same of a PID that no table lists, beside `check` and `cat` of the same file: the best of 5 runs by processor time and
# by the clock, and the most memory. `levels` by `pcr` reads as much as `check`. Goal: 1.2 times its time at most.
set -e
cd "$(dirname "${BASH_SOURCE[0]}")/.."
mkdir -p bench/out
# shellcheck source=bench/common.sh
. bench/common.sh
made dvbsub dvbsub_tools
program=./crates/dvbsub/out/dvbsub
tools=./crates/dvbsub_tools/out/dvbsub_tools
stream=bench/out/clocked.ts
text=bench/out/levels.txt
python3 bench/scripts.py hour >bench/out/script.csv
"$program" compile sd 256 1 bench/out/script.csv examples/subtitle.bdf bench/out/hour.ts >/dev/null
python3 bench/clocked_stream.py bench/out/hour.ts >"$stream"
declare -A taken
spent() {
    read -r _ processor clock memory < <(python3 bench/best.py 5 "${@:2}")
    echo "$1 $processor $clock $memory" |
        awk '{ printf "%s: %.1f ms of processor time, %.1f ms by the clock, %d kB\n", $1, 1000 * $2, 1000 * $3, $4 }'
    taken[$1]=$processor
}
spent cat cat "$stream"
spent check "$program" check sd 0 256 1 "$stream" "$text"
spent levels_by_rate "$tools" levels sd 256 1 192000 "$stream" "$text"
spent levels_by_pcr "$tools" levels sd 256 1 pcr "$stream" "$text"
spent levels_unlisted "$tools" levels sd 300 1 pcr "$stream" "$text"
awk -v check="${taken[check]}" -v pcr="${taken[levels_by_pcr]}" 'BEGIN { printf "levels by pcr: %.2f times the time of check\n", pcr / check }'
rm bench/out/script.csv bench/out/hour.ts "$stream" "$text"
