#!/usr/bin/env bash
# Compiles an hour of cues of two lines, one every four seconds, a script at the limits of a script (512 epochs, 4,096 cues,
# 8,192 colours, ten hours, a refresh each second), and one with as many cues and colours in one epoch, and copies what was
# written by `cp`: seconds, megabytes and sets a second by the clock, the seconds of the processor that were its own and not the
# system's, and the most memory, of one run each.
set -e
cd "$(dirname "${BASH_SOURCE[0]}")/.."
mkdir -p bench/out
# shellcheck source=bench/common.sh
. bench/common.sh
made dvbsub
measure() {
    local name=$1 sets=$2
    /usr/bin/time -f '%e %U %M' -o bench/out/time.txt "${@:3}" >/dev/null
    awk -v name="$name" -v sets="$sets" -v bytes="$(stat -c %s bench/out/stream.ts)" \
        '{ printf "%s: %d bytes, %.2f seconds, %.0f megabytes a second", name, bytes, $1, bytes / $1 / 1e6
           if (sets) printf ", %.0f sets a second", sets / $1
           printf ", %.2f seconds its own, %.0f megabytes of memory\n", $2, $3 / 1000 }' bench/out/time.txt
}
for script in hour limits epoch; do
    python3 bench/scripts.py $script >bench/out/script.csv
    compile=(./crates/dvbsub/out/dvbsub compile sd 256 1 bench/out/script.csv examples/subtitle.bdf bench/out/stream.ts)
    "${compile[@]}" >/dev/null
    ./dvbsub list 256 bench/out/stream.ts bench/out/list.txt >/dev/null
    sets=$(grep -c '^unit ' bench/out/list.txt)
    echo "$script: $sets sets"
    measure "compile $script" "$sets" "${compile[@]}"
    measure "cp $script" 0 cp bench/out/stream.ts bench/out/copy.ts
    rm bench/out/copy.ts
done
rm -r bench/out/script.csv bench/out/stream.ts bench/out/list.txt bench/out/time.txt
