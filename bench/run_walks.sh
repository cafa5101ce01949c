#!/usr/bin/env bash
# A part of what `compile` of pictures by runs does, by itself: the 512 pictures of bench/text_pictures.sh, from their text of runs to
# codes and to the strings of two fields, by the three walks of bench/run_walks.rs, in microseconds a picture. Neither `csv` nor
# segments nor packets are in these. Where libavcodec's headers are installed, the microseconds of its encoder stand beside them.
set -e
cd "$(dirname "${BASH_SOURCE[0]}")/.."
mkdir -p bench/out
script=bench/out/script.csv font=examples/subtitle.bdf
# shellcheck source=bench/common.sh
. bench/common.sh
rustc --edition 2021 -C opt-level=3 -o bench/out/run_walks bench/run_walks.rs
for depth in 8 4 2; do
    python3 bench/text_pictures.py $font $depth 512 512 >$script
    if encoded=$(libavcodec encode $script 512); then
        awk -v depth=$depth -v sets="$encoded" 'BEGIN { printf "%d bits, libavcodec: %.1f microseconds a set, a third of it %.1f\n", depth, 1e6 / sets, 1e6 / sets / 3 }'
    fi
    python3 bench/text_pictures.py $font $depth 512 512 runs >$script
    $first bench/out/run_walks $script $depth 40
done
rm $script
