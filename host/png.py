#!/usr/bin/env python3
"""A PPM picture as a PNG. usage: host/png.py PICTURE.ppm PICTURE.png"""
import struct
import sys
import zlib


def chunk(kind, data):
    return struct.pack(">I", len(data)) + kind + data + struct.pack(">I", zlib.crc32(kind + data))


def main(source, target):
    with open(source, "rb") as file:
        magic, size, depth, pixels = file.read().split(b"\n", 3)
    if magic != b"P6" or depth != b"255":
        sys.exit("png.py: not a PPM picture of 8 bits a colour")
    wide, high = map(int, size.split())
    rows = b"".join(b"\0" + pixels[3 * wide * row:3 * wide * (row + 1)] for row in range(high))
    with open(target, "wb") as file:
        file.write(b"\x89PNG\r\n\x1a\n" + chunk(b"IHDR", struct.pack(">IIBBBBB", wide, high, 8, 2, 0, 0, 0)))
        file.write(chunk(b"IDAT", zlib.compress(rows, 9)) + chunk(b"IEND", b""))


main(*sys.argv[1:])
