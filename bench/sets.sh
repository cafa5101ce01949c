#!/usr/bin/env bash
# Builds the proved program bench_libraries and prints how many display sets a second it reads, reads with their runs, takes into a page
# memory, and takes and draws, row by row of the whole display: sets of text of 720 by 80 pixels in 8, 4 and 2 bits, and of 1,920 by 160 pixels in 8
# bits. Each line has the best of 20 rounds. The one word is how many sets a round has (500 where it is left out). Where
# libavcodec's headers are installed, its decoder is given the same sets, and what is taken is compared with what it decodes.
set -e
cd "$(dirname "${BASH_SOURCE[0]}")/.."
mkdir -p bench/out
count=${1:-500} sets=bench/out/sets.bin lines=bench/out/lines.txt decoded=bench/out/decoded.txt
(cd crates/bench_libraries && rt run -- sets 1 >/dev/null 2>&1)
# shellcheck source=bench/common.sh
. bench/common.sh
crates/bench_libraries/out/bench_libraries sets 1 $sets >/dev/null 2>&1
for _ in {1..20}; do
    $first crates/bench_libraries/out/bench_libraries sets "$count" 2>&1 >/dev/null
done | awk '
    /:$/ { picture = $0; next }
    {
        line = picture " " substr($0, length($1) + 2)
        if (!(line in best)) lines[++count] = line
        if ($1 > best[line]) best[line] = $1
    }
    END { for (i = 1; i <= count; i++) print lines[i] ": " best[lines[i]] }' >$lines
cat $lines
if libavcodec decode $sets "$count" >$decoded; then
    awk 'NR == FNR { decoded[FNR] = $1; next }
        / taken:/ {
            printf "%s", substr($0, 1, index($0, ":"))
            if (!decoded[++group]) print " libavcodec tells of faults in these sets"
            else printf " taken: %.2f of the %d that libavcodec decodes\n", $NF / decoded[group], decoded[group] }' \
        $decoded $lines
fi
rm $sets $lines $decoded
