#!/usr/bin/env bash
# Feeds a stream of which one packet in eight is of the PID to the demultiplexer, and prints how many packets and units there were and the
# seconds that it took, beside `wc -c` over the same bytes. The first argument is the number of packets.
set -e
cd "$(dirname "${BASH_SOURCE[0]}")/.."
mkdir -p bench/out
python3 - "${1:-2000000}" bench/out/stream.ts <<'PYTHON'
import sys
count, path = int(sys.argv[1]), sys.argv[2]
null = bytes([0x47, 0x1F, 0xFF, 0x10]) + b"\xff" * 184
unit = bytes([0, 0, 1, 0xBD, 0, 178]) + bytes(178)
with open(path, "wb") as stream:
    for place in range(count):
        stream.write(null if place % 8 else bytes([0x47, 0x41, 0x00, 0x10 + place // 8 % 16]) + unit)
PYTHON
(cd crates/bench_libraries && rt run -- demux >/dev/null 2>&1)
crates/bench_libraries/out/bench_libraries demux bench/out/stream.ts
time (cat bench/out/stream.ts | wc -c)
rm bench/out/stream.ts
