"""The exported entries, called by ctypes from a shared object of the static library, as include/jivakkol.h declares them; and of the stages of
crates/stages the one that writes a sweep's limits."""
import ctypes

import numpy as np

NUMBER, REAL, POINTER, LENGTH = ctypes.c_uint32, ctypes.c_float, ctypes.c_void_p, ctypes.c_size_t


def slices(*arrays):
    """Each array as the pointer and the length that an entry takes for a slice; the caller keeps the arrays until the entry has answered."""
    return [x for array in arrays for x in (array.ctypes.data, array.size)]


class Library:
    def __init__(self, path):
        shared = ctypes.CDLL(path)
        self.dealias_sweep, self.region_map = shared.jivakkol_dealias_sweep, shared.jivakkol_region_map
        self.unfold_velocity = shared.jivakkol_unfold_velocity
        sweep = [NUMBER] * 2 + [REAL] + [NUMBER] * 5
        self.dealias_sweep.argtypes, self.region_map.argtypes = sweep + [POINTER, LENGTH] * 7, sweep + [POINTER, LENGTH] * 6
        self.unfold_velocity.argtypes = [NUMBER] * 2 + [REAL] + [POINTER, LENGTH] * 5
        self.dealias_sweep.restype = self.region_map.restype = self.unfold_velocity.restype = NUMBER

    def on_sweep(self, entry, sweep, *written):
        """The answer's number of an entry that takes a sweep, its options, slices to write and work memory."""
        velocity, valid = flat(sweep)
        words, floats = np.zeros(96 * velocity.size + 64, np.uint32), np.zeros(16 * velocity.size + 16, np.float64)
        return entry(*sweep.velocity.shape, sweep.nyquist, sweep.splits, sweep.skip_rays, sweep.skip_gates, sweep.centred, sweep.wrap,
                     *slices(velocity, valid, *written, words, floats))

    def dealias(self, sweep):
        """The answer's number, the counts and the marks as rays x gates, the regions and the merges."""
        shape = sweep.velocity.shape
        counts, doubtful, pair = np.zeros(shape, np.int32), np.full(shape, 7, np.uint8), np.zeros(2, np.uint32)
        number = self.on_sweep(self.dealias_sweep, sweep, counts, doubtful, pair)
        return number, counts, doubtful, int(pair[0]), int(pair[1])

    def map(self, sweep):
        """The answer's number, the labels as rays x gates, and the number of regions."""
        labels, regions = np.zeros(sweep.velocity.shape, np.uint32), np.zeros(1, np.uint32)
        number = self.on_sweep(self.region_map, sweep, labels, regions)
        return number, labels, int(regions[0])

    def unfold(self, sweep, counts, labels):
        """The answer's number and the unfolded velocities as rays x gates; where they were not written, 7."""
        velocity, valid = flat(sweep)
        folds, regions = np.ascontiguousarray(counts.ravel(), np.int32), np.ascontiguousarray(labels.ravel(), np.uint32)
        unfolded = np.full(velocity.size, 7.0)
        number = self.unfold_velocity(*sweep.velocity.shape, sweep.nyquist, *slices(velocity, valid, folds, regions, unfolded))
        return number, unfolded.reshape(sweep.velocity.shape)


class Stages:
    """The limits of a sweep that passes questions 1 to 8."""
    def __init__(self, path):
        self.stage_limits = ctypes.CDLL(path).stage_limits
        self.stage_limits.argtypes = [REAL, NUMBER] + [POINTER, LENGTH] * 3
        self.stage_limits.restype = LENGTH

    def limits(self, sweep):
        velocity, valid = flat(sweep)
        out = np.zeros(10_000)
        return out[:self.stage_limits(sweep.nyquist, sweep.splits, *slices(velocity, valid, out))]


def flat(sweep):
    return np.ascontiguousarray(sweep.velocity.ravel(), np.float32), np.ascontiguousarray(sweep.valid.ravel(), np.uint8)
