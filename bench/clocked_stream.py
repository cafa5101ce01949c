"""Puts the tables of a programme and the samples of its clock into a compiled stream of the profile `sd`.

    python3 bench/clocked_stream.py IN > OUT

One null packet in 64 becomes the PAT or the PMT of programme 1, in turn. The PMT lists the subtitles of PID 256, and names PID 4097 as that of the
clock (PCR_PID). The first null packet behind each 200 packets becomes a packet of that PID with a sample of the clock (PCR) by its place in the
stream, at 192,000 bits a second. Nothing else changes.
"""
import struct
import sys

PACKET = 188
RATE = 192_000
NULL, PMT_PID, CLOCK_PID, STREAM_PID = 8191, 4096, 4097, 256


def checksum(data):
    """The CRC of a section (ISO/IEC 13818-1, annex A)."""
    register = 0xFFFFFFFF
    for byte in data:
        register ^= byte << 24
        for _ in range(8):
            register = (register << 1 ^ (0x04C11DB7 if register >> 31 else 0)) & 0xFFFFFFFF
    return register


def section(table, number, body):
    """A section of one table, with the pointer before it."""
    data = struct.pack(">BHHBBB", table, 0xB000 | len(body) + 9, number, 0xC1, 0, 0) + body
    return b"\0" + data + struct.pack(">I", checksum(data))


def table_packet(pid, payload, counter):
    head = struct.pack(">BHB", 0x47, 0x4000 | pid, 0x10 | counter % 16)
    return (head + payload).ljust(PACKET, b"\xff")


def clock_packet(place):
    """A packet without payload, whose adaptation field has a PCR and stuffing."""
    time = place * PACKET * 8 * 27_000_000 // RATE
    base, extension = time // 300 % 2 ** 33, time % 300
    sample = struct.pack(">Q", base << 15 | 0x3F << 9 | extension)[2:]
    head = struct.pack(">BHBBB", 0x47, CLOCK_PID, 0x20, 183, 0x10)
    return (head + sample).ljust(PACKET, b"\xff")


def main():
    stream = bytearray(open(sys.argv[1], "rb").read())
    subtitles = bytes([0x59, 8]) + b"eng" + bytes([0x10]) + struct.pack(">HH", 1, 1)
    tables = [
        (0, section(0, 1, struct.pack(">HH", 1, 0xE000 | PMT_PID))),
        (PMT_PID, section(2, 1, struct.pack(">HH", 0xE000 | CLOCK_PID, 0xF000) + struct.pack(">BHH", 6, 0xE000 | STREAM_PID, 0xF000 | len(subtitles)) + subtitles)),
    ]
    nulls, clock_due, told = 0, 0, 0
    for place in range(len(stream) // PACKET):
        at = place * PACKET
        if struct.unpack_from(">H", stream, at + 1)[0] & 0x1FFF != NULL:
            continue
        nulls += 1
        if place >= clock_due:
            stream[at:at + PACKET] = clock_packet(place)
            clock_due += 200
        elif nulls % 64 == 0:
            pid, payload = tables[told % 2]
            stream[at:at + PACKET] = table_packet(pid, payload, told // 2)
            told += 1
    sys.stdout.buffer.write(stream)


main()
