"""Looks at the painted pixels of a picture: prints their share of each colour, and compares some with what is wanted.

    python3 pixels.py PICTURE [X,Y=COLOUR | X,Y!COLOUR]...

PICTURE is a PNG of 8 bits a channel, as Chromium writes it. A colour is #rrggbb; `=` wants it at that pixel, `!` any other one.
Ends with a line of counts, and with status 1 where a pixel is another.
"""

import collections
import re
import struct
import sys
import zlib


def chunks(data):
    at = 8
    while at < len(data):
        size, kind = struct.unpack(">I4s", data[at:at + 8])
        yield kind, data[at + 8:at + 8 + size]
        at += 12 + size


def nearest(left, up, corner):
    """Paeth's predictor, as PNG has it."""
    guess = left + up - corner
    return min((abs(guess - left), 0, left), (abs(guess - up), 1, up), (abs(guess - corner), 2, corner))[2]


def unfiltered(kind, line, before, step):
    """A line of bytes without its filter."""
    for at, byte in enumerate(line):
        left, corner = (line[at - step], before[at - step]) if at >= step else (0, 0)
        up = before[at]
        line[at] = (byte + (0, left, up, (left + up) // 2, nearest(left, up, corner))[kind]) & 255
    return line


def pixels(data):
    """The picture as lines of colours."""
    parts = [*chunks(data)]
    width, height, depth, kind, _, _, interlaced = struct.unpack(">IIBBBBB", dict(parts)[b"IHDR"])
    if depth != 8 or kind not in (2, 6) or interlaced:
        sys.exit("pixels.py: the picture is no plain PNG of 8 bits a channel")
    step = 3 if kind == 2 else 4
    raw = zlib.decompress(b"".join(it for name, it in parts if name == b"IDAT"))
    lines, before, size = [], bytearray(width * step), width * step + 1
    for row in range(height):
        line = bytearray(raw[row * size:(row + 1) * size])
        before = unfiltered(line[0], line[1:], before, step)
        lines.append(["#" + before[at:at + 3].hex() for at in range(0, width * step, step)])
    return lines


def main(picture, *wanted):
    with open(picture, "rb") as file:
        lines = pixels(file.read())
    counts = collections.Counter(it for line in lines for it in line)
    for colour, count in counts.most_common(8):
        print(f"{colour} {100 * count / counts.total():.0f} %")
    wrong = 0
    for it in wanted:
        x, y, sign, colour = re.fullmatch(r"(\d+),(\d+)([=!])(#[0-9a-f]{6})", it).groups()
        found = lines[int(y)][int(x)]
        if (found == colour) != (sign == "="):
            wrong += 1
            print(f"{picture}: at {x},{y} is {found}, and wanted is {'' if sign == '=' else 'another than '}{colour}")
    print(f"{len(wanted)} pixels, {wrong} wrong")
    return 1 if wrong else 0


if __name__ == "__main__":
    sys.exit(main(*sys.argv[1:]))
