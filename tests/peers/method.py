"""The region method on SciPy and NumPy: areas by scipy.ndimage.label, limits by numpy.linspace, edges by numpy.lexsort, the heaviest edge
by numpy.argmax, rounding by numpy.round. Written from the scope document and from what Py-ART's documentation says of its
`dealias_region_based`; it shares no code and no data structure with the crates: a node's edges are found by comparing whole arrays.

A `Way` says in which types and order the arithmetic is done. The default is the scope document's; departures.py has those of Py-ART.
"""
from fractions import Fraction
from typing import Callable, NamedTuple

import numpy as np
from scipy import ndimage

MOST_LIMITS, MOST_FOLDS = 10_000, 1_000


class Sweep(NamedTuple):
    """`velocity` is f32 and `valid` truth values, both rays x gates; `nyquist` is a number that f32 has."""
    velocity: np.ndarray
    valid: np.ndarray
    nyquist: float
    splits: int = 3
    skip_rays: int = 100
    skip_gates: int = 100
    centred: int = 0
    wrap: int = 0


class Answer(NamedTuple):
    """`number` is 0, or 8 or 9, the question that got a no; then the rest says nothing."""
    number: int
    counts: np.ndarray = None
    doubtful: np.ndarray = None
    labels: np.ndarray = None
    regions: int = 0
    merges: int = 0
    offset: int = 0


def in_turn(values, starts):
    """The sum of each run of values, term after term: bincount adds its weights one by one in their order."""
    run = np.repeat(np.arange(starts.size), np.diff(np.append(starts, values.size)))
    return np.bincount(run, weights=values, minlength=starts.size)


class Way(NamedTuple):
    ranged: type = np.float64       # the greatest and least velocities, when limits are added for them
    compared: type = np.float64     # velocities and limits, when one is held against the other
    summed: Callable = in_turn      # the velocities of an edge's pairs
    divided: type = np.float64      # an edge's difference and its weight, when one is divided by the other
    product_rounded: bool = True    # whether weight x folds is rounded to f32 before it is added to a difference


def limits_of(sweep, way):
    """The interval limits, or none where question 8 gets a no."""
    width, speeds = 2.0 * sweep.nyquist / sweep.splits, sweep.velocity[sweep.valid].astype(np.float64)
    add_start = add_end = 0
    if speeds.size and (speeds.max() > sweep.nyquist or speeds.min() < -sweep.nyquist):
        greatest, least, nyquist, wide = (way.ranged(x) for x in (speeds.max(), speeds.min(), sweep.nyquist, width))
        add_start, add_end = int(np.ceil((greatest - nyquist) / wide)), int(np.ceil(-(least + nyquist) / wide))
    number = sweep.splits + 1 + add_start + add_end
    if number > MOST_LIMITS:
        return None
    return np.linspace(-sweep.nyquist - add_start * width, sweep.nyquist + add_end * width, number)


def label(sweep, limits, way):
    """Each gate's region, 0 where it has none, and the number of regions."""
    velocity, labels, regions = sweep.velocity.astype(way.compared), np.zeros(sweep.velocity.shape, np.int64), 0
    for lower, upper in zip(limits[:-1].astype(way.compared), limits[1:].astype(way.compared)):
        inside = sweep.valid & (lower <= velocity) & (velocity < upper)
        if inside.any():
            areas, number = ndimage.label(inside)
            labels[inside] = areas[inside] + regions
            regions += number
    return labels, regions


def seen(labels, axis, step, skip, wrap):
    """For each gate the index of the gate seen from it along an axis, -1 where none is."""
    place, length = list(np.indices(labels.shape)), labels.shape[axis]
    found, looking = np.full(labels.shape, -1), labels != 0
    for _ in range(skip + 1):
        place[axis] = place[axis] + step
        if wrap:
            place[axis] %= length
        looking &= (place[axis] >= 0) & (place[axis] < length)
        if not looking.any():
            break
        there = [np.where(looking, p, 0) for p in place]
        met = looking & (labels[tuple(there)] != 0)
        found[met] = np.ravel_multi_index(there, labels.shape)[met]
        looking &= ~met
    return found


def edges_of(sweep, labels, way):
    """First label, second label, weight and difference of each edge, in the order of their numbers; none where no gate sees another region."""
    rays, gates = (sweep.skip_rays, sweep.wrap), (sweep.skip_gates, 0)
    looks = [seen(labels, 0, -1, *rays), seen(labels, 0, 1, *rays), seen(labels, 1, -1, *gates), seen(labels, 1, 1, *gates)]
    looks, region = np.stack(looks, axis=-1).reshape(-1, 4), labels.ravel()
    # Scan order, and at a gate the order of the directions.
    gate, direction = np.nonzero((looks >= 0) & (region[looks] != region[:, None]))
    other = looks[gate, direction]
    if gate.size == 0:
        return None
    order = np.lexsort((region[gate], region[other]))
    gate, other = gate[order], other[order]
    first, second = region[gate], region[other]
    starts = np.flatnonzero(np.append(True, (np.diff(first) != 0) | (np.diff(second) != 0)))
    weight, speed = np.diff(np.append(starts, gate.size)), sweep.velocity.ravel().astype(np.float64)
    difference = (way.summed(speed[gate], starts) - way.summed(speed[other], starts)) / (2.0 * sweep.nyquist)
    first, second = first[starts], second[starts]
    used = first > second
    return first[used], second[used], weight[used], difference[used].astype(np.float32)


def near_tie(number):
    """Whether a number lies within one sixteenth of a whole number plus a half, the distance included; by fractions, without rounding."""
    return abs(Fraction(float(number)) % 1 - Fraction(1, 2)) <= Fraction(1, 16)


def merge_all(edges, sizes, way):
    """The regions' counts, their marks and the number of merges, or none where question 9 gets a no. A weight of 0 is a dead edge's."""
    first, second, weight, difference = edges
    node, size, counts, merges = np.arange(sizes.size), sizes.copy(), np.zeros(sizes.size, np.int64), 0
    doubtful = np.zeros(sizes.size, np.uint8)
    while weight.any():
        edge = np.argmax(weight)
        quotient = way.divided(difference[edge]) / way.divided(weight[edge])
        number, base, moved = int(np.round(quotient)), first[edge], second[edge]
        if size[base] <= size[moved]:
            base, moved, number = moved, base, -number
        counts[node == moved] += number
        doubtful[node == moved] |= near_tie(quotient)
        if abs(number) > MOST_FOLDS or np.abs(counts[node == moved]).max() > MOST_FOLDS:
            return None
        node[node == moved] = base
        size[base] += size[moved]
        add(difference, first == moved, weight * number, way)
        add(difference, second == moved, weight * -number, way)
        weight[edge] = 0
        merges += 1
        # Every live edge of both nodes gets its first end at the base.
        live = weight > 0
        turned = live & ((second == base) | (second == moved))
        first[turned], second[turned], difference[turned] = second[turned], first[turned], -difference[turned]
        bases, movers = np.flatnonzero(live & (first == base)), np.flatnonzero(live & (first == moved))
        first[movers] = base
        # Of two edges to one neighbour the base's stays.
        _, one, two = np.intersect1d(second[bases], second[movers], assume_unique=True, return_indices=True)
        stays, goes = bases[one], movers[two]
        weight[stays] += weight[goes]
        difference[stays] += difference[goes]
        weight[goes] = 0
    return counts, doubtful, merges


def add(difference, where, product, way):
    """Adds the product to the f32 differences, rounded to f32 first or once with the sum."""
    more = product[where].astype(np.float32 if way.product_rounded else np.float64)
    difference[where] = (difference[where] + more).astype(np.float32)


def dealias(sweep, way=Way()):
    limits = limits_of(sweep, way)
    if limits is None:
        return Answer(8)
    labels, regions = label(sweep, limits, way)
    edges = edges_of(sweep, labels, way) if regions > 1 else None
    if edges is None:
        return Answer(0, np.zeros(labels.shape, np.int64), np.zeros(labels.shape, np.uint8), labels, regions)
    sizes = np.bincount(labels.ravel(), minlength=regions + 1)
    sizes[0] = 0
    merged = merge_all(edges, sizes, way)
    if merged is None:
        return Answer(9)
    counts, doubtful, merges = merged
    offset = round(int(sizes @ counts) / int(sizes.sum())) if sweep.centred else 0
    return Answer(0, np.where(sweep.valid, counts[labels] - offset, 0), doubtful[labels], labels, regions, merges, offset)


def unfold(sweep, counts, labels):
    """The second entry: velocity + count x 2 x Nyquist in f64, 0 at a masked gate and at a valid one in no region."""
    return np.where(sweep.valid & (labels != 0), sweep.velocity.astype(np.float64) + counts * (2.0 * sweep.nyquist), 0.0)
