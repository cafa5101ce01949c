#!/usr/bin/env bash
# Reads compiled streams by `list`, `check`, `dump` (1,000 ticks, one band), `pictures` (of all sets, one band), `pids`, `faults` and `levels`,
# beside `cat` of the same file: an hour of cues of two lines, one every four seconds, and a script at its limits. Then `list` and `check` of a PID
# that the hour's stream does not have. Each line has the bytes of the stream, the best processor time of the program of three runs, megabytes a
# second by that, and the greatest memory of these. Behind the lines of a stream come the last two lines of `check`, and how many sets it told.
set -e
cd "$(dirname "${BASH_SOURCE[0]}")/.."
mkdir -p bench/out
# shellcheck source=bench/common.sh
. bench/common.sh
made dvbsub dvbsub_tools
program=crates/dvbsub/out/dvbsub
tools=crates/dvbsub_tools/out/dvbsub_tools
measure() {
    python3 - "$@" <<'PYTHON'
import os, resource, subprocess, sys, time
name, stream, words = sys.argv[1], sys.argv[2], sys.argv[3:]
best, memory = None, 0
for turn in range(3):
    child = subprocess.Popen(words, stdout=subprocess.DEVNULL)
    _, status, usage = os.wait4(child.pid, 0)
    if status:
        sys.exit(f"{name}: status {status >> 8}")
    spent = usage.ru_utime + usage.ru_stime
    best, memory = spent if best is None else min(best, spent), max(memory, usage.ru_maxrss)
size = os.path.getsize(stream)
print(f"{name}: {size} bytes, {best:.2f} seconds, {size / max(best, 0.001) / 1e6:.0f} megabytes a second, {memory // 1024} MB of memory")
PYTHON
}
for kind in hour limits; do
    python3 bench/scripts.py "$kind" >bench/out/script.csv
    "$program" compile sd 256 1 bench/out/script.csv examples/subtitle.bdf bench/out/stream.ts >/dev/null
    last=$(awk -F, '/^cue/ { tick = $3 } END { print tick }' bench/out/script.csv)
    ticks=$(seq 1 1000 | awk -v last="$last" '{ printf "%.0f ", 900000 + int($1 * (last - 900000) / 1000) }')
    measure "$kind, cat" bench/out/stream.ts cat bench/out/stream.ts
    measure "$kind, list" bench/out/stream.ts "$program" list 256 bench/out/stream.ts bench/out/list.txt
    measure "$kind, check" bench/out/stream.ts "$program" check sd 0 256 1 bench/out/stream.ts bench/out/check.txt
    # shellcheck disable=SC2086
    measure "$kind, dump" bench/out/stream.ts "$program" dump sd 256 1 1 bench/out/stream.ts bench/out/dump.txt $ticks
    measure "$kind, pictures" bench/out/stream.ts "$tools" pictures sd 256 1 1 bench/out/stream.ts bench/out/pictures.txt
    measure "$kind, pids" bench/out/stream.ts "$tools" pids bench/out/stream.ts bench/out/report.txt
    measure "$kind, faults" bench/out/stream.ts "$tools" faults sd 256 1 bench/out/stream.ts bench/out/report.txt
    measure "$kind, levels" bench/out/stream.ts "$tools" levels sd 256 1 192000 bench/out/stream.ts bench/out/report.txt
    tail -n 2 bench/out/check.txt
    echo "$(grep -c '^set' bench/out/check.txt) sets"
    if [ "$kind" = hour ]; then
        measure "$kind, another PID, list" bench/out/stream.ts "$program" list 257 bench/out/stream.ts bench/out/list.txt
        measure "$kind, another PID, check" bench/out/stream.ts "$program" check sd 0 257 1 bench/out/stream.ts bench/out/check.txt
    fi
done
rm bench/out/script.csv bench/out/stream.ts bench/out/list.txt bench/out/check.txt bench/out/dump.txt bench/out/pictures.txt bench/out/report.txt
