#!/bin/sh
# Builds the proved program bench_libraries and prints how many million pixels a second it writes and reads: rows of 720
# pixels of a text-like picture at each depth. The one word is how many times it does so (2000 where it is left out).
cd "$(dirname "$0")/../crates/bench_libraries" || exit 1
rt run -- pixel_rows "${1:-2000}"
