#!/bin/sh
# Builds the proved program bench_libraries and prints how many million pixels a second it paints into a region of 720 by 576
# pixels at each depth, by runs of 3, 30 and 300 pixels and by fills, and how many it fills as plain bytes. The one word is
# how many times it does so (200 where it is left out).
cd "$(dirname "$0")/../crates/bench_libraries" || exit 1
rt run -- region_paint "${1:-200}"
