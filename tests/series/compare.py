#!/usr/bin/env python3
"""Holds the winds of a made series, and of the sample, to the wind that they were made of, at the place of the last sweep; prints a line each.
usage: tests/series/compare.py NAME WINDS, WINDS being what winds.c wrote. A gate that is more than 10 m/s off, the Nyquist velocity, has a wrong fold or is noise."""
import math
import os
import struct
import sys

sys.dont_write_bytecode = True
sys.path.insert(0, os.path.join(os.path.dirname(os.path.abspath(__file__)), "..", "..", "host"))
from make_sample import GATES, NYQUIST, RAYS, radial, wind


def made():
    """The wind along each ray, gate by gate."""
    winds = []
    for ray in range(RAYS):
        azimuth = math.radians(ray * 360.0 / RAYS)
        for gate in range(GATES):
            winds.append(radial(*wind((gate + 0.5) * math.sin(azimuth), (gate + 0.5) * math.cos(azimuth)), azimuth))
    return winds


def main():
    if len(sys.argv) != 3:
        sys.exit(__doc__)
    n, data, truth = RAYS * GATES, open(sys.argv[2], "rb").read(), made()
    last, shown = struct.unpack_from(f"{n}d", data), data[8 * n:9 * n]
    picture, marks = struct.unpack_from(f"{n}d", data, 9 * n), data[17 * n:]
    swept, drawn = [g for g in range(n) if shown[g]], [g for g in range(n) if not marks[g]]
    above = lambda winds, gates: sum(winds[g] - truth[g] > NYQUIST for g in gates)
    off = lambda winds, gates: sum(abs(winds[g] - truth[g]) > NYQUIST for g in gates)
    mean = lambda winds, gates: sum(abs(winds[g] - truth[g]) for g in gates) / len(gates)
    print(f"{sys.argv[1]}: last sweep {len(swept)} gates, {off(last, swept)} off, {above(last, swept)} of them above; the median there {off(picture, swept)} off, of all its {len(drawn)} gates {off(picture, drawn)}; "
          f"mean error there {mean(last, swept):.2f} m/s in the last sweep, {mean(picture, swept):.2f} m/s in the median")


if __name__ == "__main__":
    main()
