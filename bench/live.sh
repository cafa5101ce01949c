#!/usr/bin/env bash
# Sends an hour of cues of two lines, 1,500 of them, by `live`: before each cue comes a tick that lets out what no later record can change.
# The records are read from a file, so that the time is that of the program alone: bytes written, processor time, time by the clock, and the
# most memory, best of 3, beside `compile` of the same script without its ticks, whose packets have to be the same. `checks/live_pipe.py` measures
# single records through a pipe. Goals: 20 seconds of processor time, and the memory of `compile`.
set -e
cd "$(dirname "${BASH_SOURCE[0]}")/.."
mkdir -p bench/out
# shellcheck source=bench/common.sh
. bench/common.sh
made dvbsub dvbsub_tools
python3 bench/scripts.py live >bench/out/live.csv
grep -v '^tick' bench/out/live.csv >bench/out/script.csv
spent() {
    read -r _ processor clock memory < <(python3 bench/best.py 3 "${@:3}")
    echo "$1 $processor $clock $memory $(stat -c %s "$2")" |
        awk '{ printf "%s: %d bytes, %.2f s of processor time, %.2f s by the clock, %d kB\n", $1, $5, $2, $3, $4 }'
}
spent compile bench/out/compiled.ts ./crates/dvbsub/out/dvbsub compile sd 256 1 bench/out/script.csv examples/subtitle.bdf bench/out/compiled.ts
spent live bench/out/live.ts ./crates/dvbsub_tools/out/dvbsub_tools live sd 256 1 bench/out/live.csv examples/subtitle.bdf bench/out/live.ts
cmp bench/out/compiled.ts bench/out/live.ts
echo "the same packets"
rm bench/out/script.csv bench/out/live.csv bench/out/compiled.ts bench/out/live.ts
