"""Turns the text of pictures, as `dump` and `expect` write it, into PNG files.

    python3 examples/picture_to_png.py pictures.txt NAME

writes NAME-TICK.png for each picture of the text, and nothing for one that is clear. Colours are turned from Y, Cr and Cb of
ITU-R BT.601 to red, green and blue; a transparency T of 0 is opaque, one of 255 shows nothing. Given a third word, a colour
as six hexadecimal digits, the picture stands on that colour, as it would on a still video.
"""

import struct
import sys
import zlib


def pixel(word, ground):
    """The bytes of a pixel: red, green, blue and alpha, or red, green and blue on a ground."""
    y, cr, cb, transparency = bytes.fromhex(word)
    luma = 1.164 * (y - 16)
    colour = (luma + 1.596 * (cr - 128), luma - 0.813 * (cr - 128) - 0.391 * (cb - 128), luma + 2.018 * (cb - 128))
    colour = [min(255, max(0, round(part))) for part in colour]
    if ground is None:
        return bytes(colour + [255 - transparency])
    parts = zip(colour, ground)
    return bytes(round((above * (255 - transparency) + below * transparency) / 255) for above, below in parts)


def chunk(kind, data):
    """A chunk of a PNG file (ISO/IEC 15948, clause 5.3)."""
    return struct.pack(">I", len(data)) + kind + data + struct.pack(">I", zlib.crc32(kind + data))


def png(width, height, rows, ground):
    """The bytes of a PNG file of the rows, each the runs of its line."""
    known = {}
    lines = bytearray()
    for row in rows:
        lines.append(0)  # The line's filter: none.
        for run in row.split():
            count, word = run.split("*")
            if word not in known:
                known[word] = pixel(word, ground)
            lines += known[word] * int(count)
    head = struct.pack(">IIBBBBB", width, height, 8, 6 if ground is None else 2, 0, 0, 0)
    parts = [(b"IHDR", head), (b"IDAT", zlib.compress(bytes(lines), 9)), (b"IEND", b"")]
    return b"\x89PNG\r\n\x1a\n" + b"".join(chunk(kind, data) for kind, data in parts)


def main(text, name, ground=None):
    """Writes the picture of each tick in the text."""
    with open(text) as lines:
        for line in lines:
            words = line.split()
            if words[2] == "clear":
                continue
            tick, width, height = words[1], int(words[2]), int(words[3])
            rows = [next(lines) for _ in range(height)]
            with open(f"{name}-{tick}.png", "wb") as picture:
                picture.write(png(width, height, rows, ground))


if __name__ == "__main__":
    main(sys.argv[1], sys.argv[2], bytes.fromhex(sys.argv[3]) if len(sys.argv) > 3 else None)
