#!/usr/bin/env python3
"""Writes a series of sweep files, 01.sweep to 12.sweep: rain and the sample's vortex drift past the radar, which measures them every 30 s.
usage: host/make_series.py DIR [WIDER]. DIR is made if need be. In the last sweep the vortex lies as in the sample. WIDER (0.5) says how much further than in
the sample the rain reaches; where its parts lie apart, folds are often wrong (tests/series/run).
"""
import math
import os
import random
import sys

# The import leaves no file beside the sources.
sys.dont_write_bytecode = True
from make_sample import GAP, GATES, NYQUIST, radial, rain, sweep_file, wind

SWEEPS = 12

# Gates of 500 m; rain and vortex go with a wind of 20 m/s from the west and 2 m/s from the south: so many gates in 30 s.
EAST, NORTH = 20.0 * 30.0 / 500.0, 2.0 * 30.0 / 500.0

# How much further than in the sample the rain reaches, unless said.
WIDER = 0.5

# Two sweeps are measured with a faster train of pulses.
FASTER = {4: 12.0, 9: 12.0}


def patches(chance, count):
    """Places anywhere on the sweep: x, y and reach in gates."""
    return [(chance.uniform(-GATES, GATES), chance.uniform(-GATES, GATES), chance.uniform(4.0, 10.0)) for _ in range(count)]


def inside(chance, x, y, places):
    """Whether x, y lies in one of the places, whose borders are ragged."""
    share = chance.uniform(0.6, 1.0)
    return any(math.hypot(x - east, y - north) < share * reach for east, north, reach in places)


def series_sweep(number, wider):
    """The file of one sweep. Noise is 0.6 m/s, more where the rain is weak and gates are lost. A few gates, and patches where an earlier pulse's echo
    comes in, have any velocity; other patches, and three rays in two places, are masked."""
    chance = random.Random(100 + number)
    nyquist, age = FASTER.get(number, NYQUIST), SWEEPS - number
    east, north = -EAST * age, -NORTH * age
    mixed, masked = patches(chance, 12), patches(chance, 14)
    lost = [math.radians(chance.randrange(360)) for _ in range(2)]

    def measure(x, y, azimuth):
        depth = rain(x - east, y - north) + wider
        if math.hypot(x, y) < GAP or depth <= 0.0 or any(abs(azimuth - ray) < math.radians(1.5) for ray in lost):
            return None
        weak = max(0.0, 1.0 - depth / 0.3)
        if chance.random() < 0.02 + 0.5 * weak or inside(chance, x, y, masked):
            return None
        if chance.random() < 0.02 + 0.05 * weak or inside(chance, x, y, mixed):
            return chance.uniform(-nyquist, nyquist)
        return radial(*wind(x, y, east, north), azimuth) + chance.gauss(0.0, 0.6 + weak)

    return sweep_file(nyquist, measure)


def main():
    if len(sys.argv) not in (2, 3):
        sys.exit(__doc__)
    wider = float(sys.argv[2]) if len(sys.argv) == 3 else WIDER
    os.makedirs(sys.argv[1], exist_ok=True)
    for number in range(1, SWEEPS + 1):
        with open(os.path.join(sys.argv[1], f"{number:02}.sweep"), "wb") as out:
            out.write(series_sweep(number, wider))


if __name__ == "__main__":
    main()
