#!/usr/bin/env bash
# Pictures of 720 by 80 pixels of smoothed text at each depth: 4,096 sets that show 8 pictures in turn, 512 sets that each
# show another picture, in digits and in runs, and 8 pictures in which each pixel differs from the one before it. Prints the sets a second of
# `compile`, by its own time and by the clock (the best of 15 runs), its memory, and what part of that clock `cp` takes for the bytes
# that it wrote; and the pixels a second that are coded anew (`write_fields`) and read (`check_block` and `next_run`) of 8 pictures, of
# text and of pixels that differ. Where libavcodec's headers are installed, its encoder is given the same pictures, and ours is compared with it.
set -e
cd "$(dirname "${BASH_SOURCE[0]}")/.."
mkdir -p bench/out
script=bench/out/script.csv stream=bench/out/stream.ts font=examples/subtitle.bdf
pixels=$((720 * 80))
# shellcheck source=bench/common.sh
. bench/common.sh
made dvbsub
compile() {
    local name=$1 sets=$2 user clock memory copied encoded=$3
    read -r user _ clock memory < <(python3 bench/best.py 15 ./crates/dvbsub/out/dvbsub compile hd 256 1 $script none $stream)
    read -r _ _ copied _ < <(python3 bench/best.py 15 cp $stream bench/out/copy.ts)
    rm bench/out/copy.ts
    echo "$name $sets $user $clock $memory $copied $encoded" | awk '{
        printf "%s: %.0f sets a second of its own time, %.0f by the clock, %.0f megabytes; cp takes %.2f of its clock",
            $1, $2 / ($3 + 0.0001), $2 / $4, $5 / 1000, $6 / $4
        if ($7) printf "; %.1f times the %d of libavcodec, which reads no script", $2 / ($3 + 0.0001) / $7, $7
        print "" }'
}
# Pictures of the script coded and read: million pixels a second.
pictures() {
    (cd crates/bench_libraries && rt run -- pixel_rows "$1" ../../$script 2>&1) | sed -n 's/.* bytes, \([0-9]*\) million pixels a second written, \([0-9]*\) read/\1 \2/p'
}
for depth in 8 4 2; do
    python3 bench/text_pictures.py $font $depth 8 8 >$script
    encoded=$(libavcodec encode $script 500) || encoded=
    read -r written read < <(pictures 500)
    echo "$depth-bit text: $written million pixels a second coded, $read checked and read"
    if [ "$encoded" ]; then
        awk -v ours="$written" -v theirs="$encoded" -v pixels=$pixels -v depth=$depth 'BEGIN {
            printf "%s-bit text: %.0f sets a second coded anew, %.1f times the %d of libavcodec\n", depth, ours * 1e6 / pixels, ours * 1e6 / pixels / theirs, theirs }'
    fi
    python3 bench/text_pictures.py $font $depth 8 4096 >$script
    compile "$depth-bit-4096-sets-of-8-pictures" 4096 "$encoded"
    python3 bench/text_pictures.py $font $depth 512 512 >$script
    encoded=$(libavcodec encode $script 512) || encoded=
    compile "$depth-bit-512-different-pictures" 512 "$encoded"
    python3 bench/text_pictures.py $font $depth 512 512 runs >$script
    compile "$depth-bit-512-different-pictures-in-runs" 512 "$encoded"
    python3 bench/text_pictures.py $font $depth 8 noise >$script
    read -r written read < <(pictures 500)
    echo "$depth-bit pictures where each pixel differs: $written million pixels a second coded, $read checked and read"
done
rm $script $stream
