"""Makes sweeps of up to 40 x 40 gates and compares the library's answer number, counts, marks, regions, merges and unfolded velocities with those
of method.py, its limits bit by bit with numpy.linspace's, and its region map interval by interval with scipy.ndimage.label's areas. Prints
versions and how many sweeps did what; exits 1 if any sweep differs. usage: compare.py LIBRARY.so STAGES.so COUNT (see run)"""
import platform
import struct
import sys

import numpy as np
import scipy
from scipy import ndimage

from library import Library, Stages
from method import Sweep, Way, dealias, limits_of, unfold

MOST = 40


def smooth(chance, shape, nyquist):
    """A wind that turns with ray and gate, with noise, folded into the Nyquist interval; in half the cases on a grid, so that ties arise."""
    ray, gate = np.indices(shape) / MOST
    wind = chance.uniform(1, 4) * np.sin(chance.uniform(1, 7) * ray + chance.uniform(0, 5) * gate) + chance.choice([0.0, 0.1, 0.5]) * chance.normal(size=shape)
    folded = (wind + 1.0) % 2.0 - 1.0
    return nyquist * (np.round(folded * 16) / 16 if chance.random() < 0.5 else folded)


def wide(chance, shape, nyquist):
    """Velocities of either sign from 2^-60 of Nyquist to Nyquist: sums of them are inexact in f64."""
    return nyquist * chance.choice([-1.0, 1.0], shape) * chance.uniform(0.5, 1, shape) * 2.0 ** -chance.choice([0, 0, 1, 2, 30, 45, 60], shape)


def tipping(chance):
    """Two regions side by side whose difference over their weight is a half but for a last bit: whether small velocities among the large ones
    are lost in the f64 sums decides how that difference is narrowed to f32, and so the count. In another order of summing others are lost."""
    length = int(chance.integers(4, MOST + 1))
    small, power = chance.permutation(length) < length // 2, np.floor(np.log2(length))
    above = np.where(small, 2.0 ** (power - 52 - chance.integers(3, 5, length)), chance.integers(4, 8, length) / 8)
    below = np.full(length, np.floor(8 - 8 * above[~small].sum() / length) / 8)
    below[:int(8 * (length - above[~small].sum() - below.sum()))] += 0.125  # both sides' large parts add up to the length
    below[chance.integers(length)] += 2.0 ** (power - 24)  # and half a last bit of the f32 difference is added
    velocity = np.stack([above, -below]).astype(np.float32)
    if chance.random() < 0.5:
        velocity = np.ascontiguousarray(velocity.T)
    return Sweep(velocity, np.ones(velocity.shape, bool), 1.0, 2, 0, 0)


# Velocities of many kinds; uniform ones and those of levels drawn from a range have full mantissas.
FAMILIES = {
    "few levels": lambda chance, shape, nyquist: chance.choice(chance.uniform(-1, 1, chance.integers(2, 6)) * nyquist, shape),
    "quarters of Nyquist": lambda chance, shape, nyquist: nyquist * chance.integers(-4, 5, shape) / 4,
    "sixteenths of a fold": lambda chance, shape, nyquist: nyquist * chance.integers(-8, 9, shape) / 8,
    "near both ends": lambda chance, shape, nyquist: nyquist * chance.choice([0.9, -0.9, 1.0, -1.0, 0.5, -0.5, -0.0], shape),
    "uniform": lambda chance, shape, nyquist: nyquist * chance.uniform(-1, 1, shape),
    "beyond Nyquist": lambda chance, shape, nyquist: nyquist * chance.choice([1.2, 3.0, 40.0]) * chance.uniform(-1, 1, shape),
    "far beyond Nyquist": lambda chance, shape, nyquist: nyquist * chance.choice([500.0, 1050.0, 5000.0]) * chance.choice([-1.0, 0.0, 0.9, 1.0], shape),
    "wind": smooth,
    "wide exponents": wide,
}


def make(seed):
    """A sweep in the ranges of questions 1 to 7, and the name of its family."""
    chance = np.random.default_rng(seed)
    if chance.random() < 0.1:
        return "tipping sums", tipping(chance)
    shape = tuple(int(chance.integers(0, 1 + chance.choice([3, 12, MOST], p=[0.1, 0.2, 0.7]))) for _ in range(2))
    nyquist = float(np.float32(chance.choice([10, 1, 16, 0.125, 1024, chance.uniform(0.125, 40), chance.uniform(0.125, 1024)])))
    splits = int(chance.choice([3, 3, 3, 1, 2, chance.integers(1, 10), chance.integers(1, 200), 9999], p=[.2, .2, .1, .1, .1, .2, .095, .005]))
    name = list(FAMILIES)[chance.integers(len(FAMILIES))]
    velocity = np.clip(FAMILIES[name](chance, shape, nyquist), -16384, 16384).astype(np.float32)
    if chance.random() < 0.3 and min(shape) > 1:  # larger regions: each gate of a block of 2 x 3 as its first
        velocity = velocity[np.indices(shape)[0] // 2 * 2, np.indices(shape)[1] // 3 * 3]
    valid = chance.random(shape) >= chance.choice([0.0, 0.1, 0.3, 0.6, 0.9])
    if chance.random() < 0.2:  # a hole over some rays and gates
        valid[shape[0] // 3:shape[0] // 2, shape[1] // 4:] = False
    velocity[~valid & (chance.random(shape) < 0.2)] = chance.choice([np.nan, np.inf, -np.inf, 1e30])
    skips = (int(chance.choice([0, 0, 1, 2, 5, 100, 1000])) for _ in range(2))
    return name, Sweep(velocity, valid, nyquist, splits, *skips, *(int(x) for x in chance.integers(0, 2, 2)))


def line(sweep):
    """The sweep as the program of tests/oracle reads it."""
    bits = [f"{x:08x}" for x in sweep.velocity.ravel().view(np.uint32)]
    numbers = [*sweep.velocity.shape, struct.pack(">f", sweep.nyquist).hex(), *sweep[3:]]
    return " ".join([*map(str, numbers), *(f"{int(m)}:{v}" for m, v in zip(sweep.valid.ravel(), bits))])


def difference(library, sweep, expected):
    """What differs between the library's answer and the expected one, or nothing."""
    number, counts, doubtful, regions, merges = library.dealias(sweep)
    if number != expected.number:
        return f"answer {number}, expected {expected.number}"
    if number != 0:
        return None
    if (regions, merges) != (expected.regions, expected.merges):
        return f"regions and merges {regions}, {merges}, expected {expected.regions}, {expected.merges}"
    if not np.array_equal(counts, expected.counts):
        return f"{np.count_nonzero(counts != expected.counts)} counts"
    if not np.array_equal(doubtful, expected.doubtful):
        return f"{np.count_nonzero(doubtful != expected.doubtful)} marks"
    # Each with its own labels.
    number, unfolded = library.unfold(sweep, counts, library.map(sweep)[1])
    if number != 0 or unfolded.tobytes() != unfold(sweep, counts, expected.labels).tobytes():
        return f"unfolded velocities, answer {number}"
    return None


def map_difference(library, stages, sweep, seen):
    """What differs between the library's limits and region map and those of NumPy and SciPy, or nothing; counts what was compared."""
    limits, (number, labels, regions) = limits_of(sweep, Way()), library.map(sweep)
    if limits is None:
        return None if number == 8 and not labels.any() and regions == 0 else f"map: answer {number}, expected 8"
    if number != 0:
        return f"map: answer {number}, expected 0"
    if stages.limits(sweep).tobytes() != limits.tobytes():
        return "limits"
    velocity, before, in_none = sweep.velocity.astype(np.float64), 0, np.ones(labels.shape, bool)
    for lower, upper in zip(limits[:-1], limits[1:]):
        inside = sweep.valid & (lower <= velocity) & (velocity < upper)
        if not inside.any():
            continue
        areas, found = ndimage.label(inside)
        if not np.array_equal(labels[inside], areas[inside] + before):
            return f"map: labels from {lower} to {upper}"
        before, in_none = before + found, in_none & ~inside
        seen["intervals with gates"] += 1
    seen["maps"] += 1
    seen["limits"] += limits.size
    seen["labelled gates"] += int(np.count_nonzero(labels))
    return None if before == regions and not labels[in_none].any() else "map: number of regions, or a gate in no interval"


def main(path, stages, count):
    print(f"NumPy {np.__version__}, SciPy {scipy.__version__}, Python {platform.python_version()}")
    library, stages, differ, tipped = Library(path), Stages(stages), 0, 0
    mapped = dict.fromkeys(["maps", "limits", "intervals with gates", "labelled gates"], 0)
    families, regions, merges = dict.fromkeys([*FAMILIES, "tipping sums"], 0), 0, 0
    did = ["two regions or more", "a count other than 0", "an offset other than 0", "a mark"]
    seen, marked = dict.fromkeys(["accepted", "refused by 8", "refused by 9", *did], 0), 0
    unfolded = dict.fromkeys(["shown", "masked", "valid in no region", "sweeps with one of these"], 0)
    for seed in range(count):
        name, sweep = make(seed)
        with np.errstate(invalid="ignore"):  # masked gates hold NaN and infinities
            expected = dealias(sweep)
            wrong = difference(library, sweep, expected) or map_difference(library, stages, sweep, mapped)
        if wrong:
            differ += 1
            print(f"DIFFERENT, seed {seed}, {name}: {wrong}\n{line(sweep)}")
        families[name] += 1
        seen["accepted" if expected.number == 0 else f"refused by {expected.number}"] += 1
        if expected.number == 0:
            regions, merges = regions + expected.regions, merges + expected.merges
            seen["two regions or more"] += expected.regions > 1
            seen["a count other than 0"] += bool(expected.counts.any())
            seen["an offset other than 0"] += expected.offset != 0
            seen["a mark"] += bool(expected.doubtful.any())
            marked += int(np.count_nonzero(expected.doubtful))
            in_none = int(np.count_nonzero(sweep.valid & (expected.labels == 0)))
            masked = int(np.count_nonzero(~sweep.valid))
            for what, more in zip(unfolded, (sweep.valid.size - masked - in_none, masked, in_none, in_none > 0)):
                unfolded[what] += more
        if name == "tipping sums":
            tipped += not np.array_equal(expected.counts, dealias(sweep, Way(summed=np.add.reduceat)).counts)
    print("made:", ", ".join(f"{name} {number}" for name, number in families.items()))
    print("of them:", ", ".join(f"{name} {number}" for name, number in seen.items()))
    print("gates of the unfolded velocities:", ", ".join(f"{name} {number}" for name, number in unfolded.items()))
    print("limits and region maps compared:", ", ".join(f"{name} {number}" for name, number in mapped.items()))
    print(f"regions {regions}, merges {merges}, gates marked {marked}; tipping sums that get other counts by add.reduceat {tipped}")
    print(f"{count} sweeps, {differ} differ")
    return 1 if differ else 0


if __name__ == "__main__":
    sys.exit(main(*sys.argv[1:3], int(sys.argv[3])))
