#!/usr/bin/env python3
"""Writes the sample sweep as a sweep file: a made wind over a made echo, folded at Nyquist 10 m/s, in steps of 0.01 m/s.
usage: host/make_sample.py [FILE], by default to standard output. The form of a file: jivakkol_read_sweep in include/jivakkol.h.
"""
import math
import random
import struct
import sys

RAYS, GATES, NYQUIST = 360, 120, 10.0

# Gates nearer to the radar than this show no echo.
GAP = 5.0


def wind(x, y, east=0.0, north=0.0):
    """East and north wind in m/s at x, y (gates): a westerly that grows outwards, and a vortex, moved east and north by so many gates."""
    r = math.hypot(x, y) / GATES
    u, v = 14.0 + 16.0 * r, 4.0 - 6.0 * r
    dx, dy = x - east - 45.0, y - north + 30.0
    d = math.hypot(dx, dy) + 1e-9
    s = 18.0 * (d / 14.0) * math.exp(1.0 - d / 14.0)
    return u - s * dy / d, v + s * dx / d


def rain(x, y):
    """How far inside rain x, y lies, above 0 where there is any: two bands, and a cell round the vortex."""
    bands = math.sin(0.05 * x + 0.9 * math.sin(0.04 * y)) + 0.5 * math.sin(0.07 * y - 0.02 * x)
    return max(bands + 0.25, 1.0 - math.hypot(x - 45.0, y + 30.0) / 32.0)


def radial(u, v, azimuth):
    """What a ray sees of an east and north wind: m/s away from the radar."""
    return u * math.sin(azimuth) + v * math.cos(azimuth)


def field(tag, contents):
    return struct.pack(">BH", tag, len(contents)) + contents


def sweep_file(nyquist, measure):
    """The file of a sweep: measure(x, y, azimuth) is a gate's velocity in m/s before it is folded, None where it is masked."""
    # Splits 3, both skips 100, centred, the last ray adjoins the first.
    file = field(1, struct.pack(">HHfHHHB", RAYS, GATES, nyquist, 3, 100, 100, 1 | 2))
    for ray in range(RAYS):
        azimuth = math.radians(ray * 360.0 / RAYS)
        row = b""
        for gate in range(GATES):
            speed = measure((gate + 0.5) * math.sin(azimuth), (gate + 0.5) * math.cos(azimuth), azimuth)
            if speed is None:
                row += struct.pack(">Bf", 0, 0.0)
                continue
            folded = (speed + nyquist) % (2.0 * nyquist) - nyquist
            row += struct.pack(">Bf", 1, round(100.0 * folded) / 100.0)
        file += field(2, row)
    return file


def sample():
    chance = random.Random(11)

    def measure(x, y, azimuth):
        if math.hypot(x, y) < GAP or rain(x, y) <= 0.0 or chance.random() < 0.02:
            return None
        return radial(*wind(x, y), azimuth) + chance.gauss(0.0, 0.6)

    return sweep_file(NYQUIST, measure)


def main():
    if len(sys.argv) > 2:
        sys.exit(__doc__)
    if len(sys.argv) == 2:
        with open(sys.argv[1], "wb") as out:
            out.write(sample())
    else:
        sys.stdout.buffer.write(sample())


if __name__ == "__main__":
    main()
