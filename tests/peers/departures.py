"""Runs the rows of docs/DIFFERENCES.md that set the scope document's arithmetic against Py-ART's: each row's sweep through the library, through
method.py in the scope document's way and in Py-ART's, and through the Rust if the folder of tests/oracle/build is given. Exits 1 where one of
them gives other counts than the page says. usage: departures.py LIBRARY.so STAGES.so [ORACLE] (see run)

Py-ART itself is not run. Its way depends on how NumPy promotes types, which changed with NumPy 2. Both ways are written out here in explicit
types, so that neither depends on the NumPy at hand, and `promotions` says which of them is what that NumPy does by itself.
"""
import subprocess
import sys

import numpy as np
import scipy

from compare import line
from library import Library
from method import Sweep, Way, dealias, in_turn, unfold

BEFORE_2 = Way(compared=np.float32, summed=np.add.reduceat, product_rounded=False)
SINCE_2 = Way(ranged=np.float32, summed=np.add.reduceat, divided=np.float32, product_rounded=False)


def all_valid(velocity, nyquist, splits, skips=0):
    velocity = np.asarray(velocity, np.float32)
    return Sweep(velocity, np.ones(velocity.shape, bool), nyquist, splits, skips, skips)


def plain(*velocities, splits=3):
    """The scope document's setting: one ray, all valid, Nyquist 10, skips 100, no wrap, uncentred."""
    return all_valid([velocities], 10.0, splits, 100)


def bits(word):
    return float(np.array(word, np.uint32).view(np.float32))


def combs(rays, gates, upper, lower):
    """Two regions as interlocking combs: the first gate of each ray is of one, the last of the other, and between them rays take turns."""
    ray, gate = np.indices((rays, gates))
    return np.where((gate == 0) | ((gate < gates - 1) & (ray % 2 == 0)), upper, lower)


def layers(solid, teeth, gates, base, moved, third):
    """A solid block of the base, combs of base and moved region, a ray of the moved one, combs of the third and the moved region.
    The third region sees the moved one alone, by teeth x (gates - 1) + 1 pairs; the base sees it by more, and is larger."""
    first = combs(teeth + 1, gates, base, moved)[1:]  # from a tooth of the moved region on
    return np.concatenate([np.full((solid, gates), base), first, np.full((1, gates), moved), combs(teeth, gates, third, moved)])


TINY = 2.0 ** -52
SUMS = [[.75, .75, .75, TINY, TINY, TINY], [-.625] * 5 + [-.625 - 2.0 ** -22]]
TOO_GREAT = plain(bits(0x5B8A1B4F))
# What, the sweep, and the counts: here, in Py-ART's way before NumPy 2, and since. Of a large sweep how many gates get each count.
ROWS = [
    ("a limit compared in f32", plain(9, bits(0x40555555), -9), [-1, -1, 0], [0, 0, 1], [-1, -1, 0]),
    ("added limits in f32", plain(bits(0x417B6DB7), -16, splits=7), [-2, 0], [-2, 0], [0, 0]),
    ("sums by add.reduceat", all_valid(SUMS, 1.0, 2), [0] * 12, [-1] * 6 + [0] * 6, [-1] * 6 + [0] * 6),
    ("difference over weight in f32", all_valid(combs(111, 150, 512.5, -512.5), 1.0, 1),
     {0: 8399, 513: 8251}, {0: 8399, 513: 8251}, {0: 8399, 512: 8251}),
    ("weight x folds added in f64", all_valid(layers(29, 54, 312, 998.5, -999.5, 999.5), 1.0, 1),
     {-1: 8424, 0: 17472, 999: 17160}, {0: 25896, 999: 17160}, {0: 25896, 999: 17160}),
]


def short(counts):
    """The counts themselves of a small sweep, else how many gates get each."""
    if counts.size <= 12:
        return counts.ravel().tolist()
    return {int(k): int(n) for k, n in zip(*np.unique(counts, return_counts=True))}


def promotions():
    """What the NumPy at hand does in the places where Py-ART leaves the type or the order to it."""
    limit, near, row = np.linspace(-10.0, 10.0, 4)[2], np.array([bits(0x40555555)], np.float32), np.array(SUMS[0])
    return {
        "an f32 array is compared with an f64 limit in f32": (limit <= near)[0] and not limit <= float(near[0]),
        "an f32 number less a float is f64": type(near[0] - 10.0) is np.float64,
        "an f32 number over a float is f64": type(near[0] / 3.0) is np.float64,
        "an f32 number and an int32 number times an int add up to f64": type(near[0] + np.int32(3) * 5) is np.float64,
        "add.reduceat gives another sum than one term after another": np.add.reduceat(row, [0])[0] != in_turn(row, np.array([0]))[0],
    }


def rust(oracle, command, sweep):
    return [int(x) for x in subprocess.run([f"{oracle}/oracle", command], input=line(sweep), capture_output=True, text=True, check=True).stdout.split()]


def checks(library, oracle):
    """What is looked at, what came and what the page says."""
    for what, sweep, here, before, since in ROWS:
        number, counts, *_ = library.dealias(sweep)
        yield f"{what}, the library", (number, short(counts)), (0, here)
        yield f"{what}, method.py", short(dealias(sweep).counts), here
        if oracle:
            answer = rust(oracle, "answer", sweep)
            yield f"{what}, the Rust", (answer[0], short(np.array(answer[4:]))), (0, here)
        yield f"{what}, Py-ART's way before NumPy 2", short(dealias(sweep, BEFORE_2).counts), before
        yield f"{what}, Py-ART's way since NumPy 2", short(dealias(sweep, SINCE_2).counts), since
    try:
        raised = len(dealias(TOO_GREAT).counts)
    except ValueError as error:
        raised = str(error)
    yield "a negative number of limits, numpy.linspace", raised, "Number of samples, -2, must be non-negative."
    yield "a negative number of limits, the library", library.dealias(TOO_GREAT)[0], 7
    if oracle:
        yield "a negative number of limits, the Rust", rust(oracle, "counts", TOO_GREAT), [0]
    masked = plain(9, 9, -9, -9, 9, 9)._replace(valid=np.array([[1, 1, 1, 1, 1, 0]], bool), centred=1)
    yield "a masked gate, method.py: offset", dealias(masked).offset, -1
    yield "a masked gate, the library", short(library.dealias(masked)[1]), [0, 0, 1, 1, 0, 0]
    # The last gate is at Nyquist, where the last interval ends: it gets a count, and shows no wind.
    last = plain(9, 9, -9, -9, 9, 10)._replace(centred=1)
    number, counts, *_ = library.dealias(last)
    yield "a valid gate in no region, the library: its count", (number, short(counts)), (0, [0, 0, 1, 1, 0, 1])
    yield "a valid gate in no region, the library: unfolded", short(library.unfold(last, counts, library.map(last)[1])[1]), [9, 9, 11, 11, 9, 0]
    yield "a valid gate in no region, method.py: unfolded", short(unfold(last, counts, dealias(last).labels)), [9, 9, 11, 11, 9, 0]
    tenth = np.float32(0.1)
    unfolded = library.unfold(plain(tenth), np.array([1]), library.map(plain(tenth))[1])[1]
    yield "unfolded 0.1 by one fold at Nyquist 10, the library", unfolded.item(), 20.100000001490116
    yield "unfolded 0.1 by one fold at Nyquist 10, in f32", (tenth + np.float32(1) * np.float32(2) * np.float32(10)).item(), 20.100000381469727


def main(path, _, oracle=None):
    print(f"NumPy {np.__version__}, SciPy {scipy.__version__}{'' if oracle else '; the Rust is not run'}")
    for what, so in promotions().items():
        print(f"{what}: {'yes' if so else 'no'}")
    wrong = 0
    for what, came, said in checks(Library(path), oracle):
        wrong += came != said
        print(f"{what}: {came}" + ("" if came == said else f" DIFFERENT, the page says {said}"))
    print(f"{wrong} differ from the page")
    return 1 if wrong else 0


if __name__ == "__main__":
    sys.exit(main(*sys.argv[1:]))
