"""Sweep files for recorded runs, by hand and by the oracle's makers: what `make` here and in tests/book choose from. Every file stands with the number
that it is to get, one with two faults with that of the first in file order."""
import itertools
import os
import struct
import subprocess
import sys

NAN, QUIET, SIGNALLING, INFINITE = 0x7FC00000, 0xFFC00BAD, 0x7F800001, 0x7F800000
RAYS, GATES, NYQUIST, SPLITS, SKIP_RAYS, SKIP_GATES, OPTIONS = range(7)


def bits(x):
    return struct.unpack(">I", struct.pack(">f", x))[0]


class File:
    """A file in parts: the header's numbers, and the gates' mask bytes and velocity bits by ray. With them tags, lengths and contents of
    fields where they are not as they must be, what follows the last field, and how many bytes are left where it is cut."""

    def __init__(self, numbers, rays):
        self.numbers, self.rays, self.tags, self.lengths, self.contents = list(numbers), [list(r) for r in rays], {}, {}, {}
        self.after, self.left = b"", None

    def copy(self):
        other = File(self.numbers, self.rays)
        other.tags, other.lengths, other.contents = dict(self.tags), dict(self.lengths), dict(self.contents)
        other.after, other.left = self.after, self.left
        return other

    def fields(self):
        contents = [struct.pack(">HHIHHHB", *self.numbers)] + [b"".join(struct.pack(">BI", *g) for g in r) for r in self.rays]
        for i, own in enumerate(contents):
            there = self.contents.get(i, own)
            yield struct.pack(">BH", self.tags.get(i, 1 if i == 0 else 2), self.lengths.get(i, len(there))) + there

    def bytes(self):
        return (b"".join(self.fields()) + self.after)[:self.left]

    def line(self):
        """The sweep as `oracle` reads it on a line."""
        n = self.numbers
        words = [str(x) for x in n[:2]] + [f"{n[NYQUIST]:08x}"] + [str(x) for x in n[3:6] + [n[OPTIONS] % 2, n[OPTIONS] // 2]]
        return " ".join(words + [f"{m}:{v:08x}" for m, v in itertools.chain(*self.rays)])

    def start(self, field):
        """Where a field starts."""
        return sum(len(f) for f in list(self.fields())[:field])


def sweep(rays, gates, velocities, nyquist=10.0, splits=3, skips=(100, 100), options=0):
    """The file of a sweep whose velocities are given, or bits of masked gates as whole numbers in brackets."""
    pairs = [(0, v[0]) if isinstance(v, list) else (1, bits(v)) for v in velocities]
    return File([rays, gates, bits(nyquist), splits, *skips, options], [pairs[i * gates:(i + 1) * gates] for i in range(rays)])


def of_line(line):
    """The file of a sweep as `oracle` writes it on a line."""
    w = line.split()
    n = [int(x, 16 if i == NYQUIST else 10) for i, x in enumerate(w[:8])]
    pairs = [(int(m), int(v, 16)) for m, v in (g.split(":") for g in w[8:])]
    return File(n[:6] + [n[6] + 2 * n[7]], [pairs[i * n[1]:(i + 1) * n[1]] for i in range(n[0])])


class Oracle:
    def __init__(self, folder):
        self.program = os.path.join(folder, "oracle")

    def run(self, words, given=b""):
        return subprocess.run([self.program] + words, input=given, capture_output=True, check=True).stdout.decode("ascii")

    def accepted(self, seed, count, most):
        """The accepted ones of made sweeps of at most so many gates, each with its answer: regions, merges, offset and counts."""
        return self.answered(["make", str(seed), str(count), str(most)])

    def near_ties(self, seed, count):
        """The same of sweeps with merges at and beside a near tie."""
        return self.answered(["doubtful", str(seed), str(count)])

    def answered(self, maker):
        lines = self.run(maker).splitlines()
        answers = self.run(["answer"], "".join(line + "\n" for line in lines).encode("ascii")).splitlines()
        return [(of_line(line), [int(x) for x in a.split()[1:]]) for line, a in zip(lines, answers, strict=True) if a.startswith("0 ")]

    def entries(self, files):
        """The merges of accepted sweeps, each as eight numbers: its entry in the book, how many records its edge is made of, the base's gates."""
        lines = self.run(["entries"], "".join(f.line() + "\n" for f in files).encode("ascii")).splitlines()
        words = [[int(x) for x in line.split()[1:]] for line in lines]
        return [[w[i:i + 8] for i in range(0, len(w), 8)] for w in words]

    def printed(self, command, files):
        return self.run([command], listed(files))

    def numbers(self, files):
        return [int(x) for x in self.run(["numbers"], listed(files)).splitlines()]


def listed(files):
    return b"".join(struct.pack(">H", len(f)) + f for f in files)


def accepted(files):
    return [(0, f) for f in files]


def worked():
    """Every row of the scope document's table of sweeps worked by hand, but for those that it refuses; first the one of the request."""
    five, apart = [9, 9, -9, -9, 9], [9, [NAN], -9]
    return accepted([
        sweep(1, 3, [9, 9, -9]),
        sweep(1, 0, []),
        sweep(1, 2, [9, -9]),
        sweep(1, 5, five),
        sweep(1, 5, five, options=1),
        sweep(1, 6, five + [10], options=1),
        sweep(1, 2, [5, -5]),
        sweep(1, 2, [-15, 15]),
        sweep(1, 2, [12, 12]),
        sweep(1, 2, [-1000, 1000], 1.0, 1),
        sweep(3, 1, apart, skips=(0, 0), options=2),
        sweep(3, 1, apart, skips=(0, 0)),
        sweep(1, 2, [9, -9], splits=9999),
    ])


def unknown(files):
    """The same, the NaNs of masked gates with other bits in two files of three."""
    for f, other in zip(files, itertools.cycle((NAN, QUIET, SIGNALLING))):
        f.rays = [[(m, other if (m, v) == (0, NAN) else v) for m, v in r] for r in f.rays]
        yield f


def limits():
    """The last value that each question takes, every pair of options, and all gates masked."""
    base = BASE.copy
    files = [numbered(base(), change) for change in (
        {NYQUIST: bits(0.125)}, {NYQUIST: bits(1024.0)}, {SPLITS: 1}, {SPLITS: 9999, NYQUIST: bits(16.0)},
        {SKIP_RAYS: 1000, SKIP_GATES: 1000}, {SKIP_RAYS: 1000, SKIP_GATES: 0}, {SKIP_RAYS: 0, SKIP_GATES: 1000},
        {OPTIONS: 0}, {OPTIONS: 1}, {OPTIONS: 2}, {OPTIONS: 3})]
    fast = [sweep(1, 2, [16384, -16384], 1024.0), sweep(2, 1, [16384, 16383], 4.0, 1), sweep(1, 2, [-16384, 0], 2.0, 1)]
    masked = [[x] for x in (NAN, INFINITE, 0x46800001, 0xFFFFFFFF, 0, 1, SIGNALLING, 1 << 31)]
    return accepted(files + fast + [sweep(2, 4, masked), sweep(8, 1, masked, options=3)])


def sizes():
    """No gate or no ray, and both sides of question 1 and of 128 gates."""
    none = [wind(r, g) for r, g in ((0, 0), (0, 1), (0, 1200), (1, 0), (3, 0), (719, 0), (720, 0))] + [wind(720, 0, 3)]
    most = [wind(r, 128 // r, r % 3) for r in (1, 2, 4, 8, 16, 32, 64, 128)] + [wind(127, 1), wind(1, 127), wind(9, 14)]
    above = [wind(r, g) for r, g in ((1, 129), (129, 1), (3, 43), (43, 3), (13, 10), (2, 65), (1, 815), (509, 1), (8, 101))]
    large = [numbered(wind(0, 0), {RAYS: r, GATES: g}) for r, g in ((721, 0), (0, 1201), (721, 1201), (65535, 65535))] + [wind(721, 0)]
    return accepted(none + most + above) + [(1, f) for f in large]


def longest():
    """The longest file of at most 128 gates with faults at its end, longer input, and input that is no file at all."""
    most = lambda: wind(720, 0)
    ends = [(11, chopped(most(), 720, k)) for k in (0, 1, 2)] + [(12, tagged(most(), 720, 1)), (11, lengthy(most(), 720, 5))]
    more = [followed(most(), x) for x in (bytes(1), bytes(2), bytes(3), bytes(1918), b"\2\0\0", b"\2\0\0" * 639)]
    more += [followed(wind(1, 128), bytes(k)) for k in (1, 1518, 3435)] + [followed(wind(0, 0), bytes(k - 18)) for k in (2179, 4095, 4096)]
    ends += [(12, f) for f in more] + [(1, followed(wind(721, 0), bytes(k))) for k in (0, 1, 1915)]
    return ends + [(12, b"\0"), (12, b"\2"), (12, bytes(2179)), (12, b"\2" * 4096), (11, b"\1" * 4096), (11, b"\1\0\20" + bytes(4093))]


def wind(rays, gates, options=0):
    """A sweep of a size."""
    return sweep(rays, gates, [(9, -9, 7, 9, 9, -8, 0, 3, -9, -9, 5)[i * i % 11] for i in range(rays * gates)], options=options)


BASE = sweep(2, 3, [9, 9, -9, [NAN], -9, 4])


# What may be wrong in a file, as edits of one.
def numbered(f, change):
    f.numbers = [change.get(i, x) for i, x in enumerate(f.numbers)]
    return f


def tagged(f, field, tag):
    f.tags[field] = tag
    return f


def lengthy(f, field, length, contents=None):
    """A field says another length; where contents are given it has them too."""
    f.lengths[field] = length
    if contents is not None:
        f.contents[field] = contents
    return f


def chopped(f, field, kept):
    """Only so many bytes of a field are left, and nothing after it."""
    f.left = f.start(field) + kept
    return f


def followed(f, after):
    f.after += after
    return f


def gated(f, ray, gate, mask, velocity, change=None):
    f.rays[ray][gate] = (mask, velocity)
    return numbered(f, change or {})


# Every kind of fault in the order in which it is found, with its number.
KINDS = [
    (12, lambda f: tagged(f, 0, 2)),
    (11, lambda f: lengthy(f, 0, 14)),
    (11, lambda f: lengthy(f, 0, 16, struct.pack(">HHIHHHBB", *f.numbers, 0))),
    (11, lambda f: chopped(f, 0, 17)),
    (12, lambda f: numbered(f, {OPTIONS: 4})),
    (1, lambda f: numbered(f, {RAYS: 721})),
    (1, lambda f: numbered(f, {GATES: 1201})),
    (11, lambda f: chopped(f, 1, 0)),
    (12, lambda f: tagged(f, 1, 1)),
    (11, lambda f: lengthy(f, 1, 14)),
    (11, lambda f: chopped(f, 1, 17)),
    (11, lambda f: chopped(f, 2, 0)),
    (12, lambda f: tagged(f, 2, 3)),
    (11, lambda f: lengthy(f, 2, 16)),
    (11, lambda f: chopped(f, 2, 17)),
    (12, lambda f: followed(f, b"\2")),
    (3, lambda f: gated(f, 0, 0, 2, 0)),
    (5, lambda f: numbered(f, {NYQUIST: NAN})),
    (6, lambda f: numbered(f, {SPLITS: 0})),
    (6, lambda f: numbered(f, {SKIP_GATES: 1001})),
    (7, lambda f: gated(f, 1, 1, 1, NAN)),
    (8, lambda f: gated(f, 1, 2, 1, bits(16384.0), {NYQUIST: bits(0.125), SPLITS: 7})),
    (9, lambda f: gated(gated(f, 0, 1, 1, bits(-2000.0)), 0, 2, 1, bits(2000.0), {NYQUIST: bits(1.0), SPLITS: 1})),
]


def alone():
    """More ways of each fault by itself: pairs of the number and the file."""
    base = BASE.copy
    header, ray = (list(base().fields())[i][3:] for i in (0, 1))
    ways = [(12, tagged(base(), i, t)) for i in (0, 1, 2) for t in (0, 1 if i else 3, 255)]
    ways += [(11, lengthy(base(), i, k)) for i in (0, 1, 2) for k in (0, 1, 16 if i else 14, 0x0F00, 0x010F)]
    ways += [(11, lengthy(base(), 0, len(c), c)) for c in (b"", header[:14], header + b"\0", header + b"\4", header[:14] + b"\4\0")]
    ways += [(11, lengthy(base(), i, len(c), c)) for i in (1, 2) for c in (b"", ray[:10], ray + ray[:5], ray[:14])]
    ways += [(11, chopped(base(), 0, k)) for k in range(18)] + [(11, chopped(base(), i, k)) for i in (1, 2) for k in (1, 2, 3, 4, 8, 16)]
    ways += [(12, numbered(base(), {OPTIONS: 3 | x})) for x in (4, 8, 16, 32, 64, 128, 252)]
    ways += [(1, numbered(base(), c)) for c in ({RAYS: 65535}, {GATES: 2000}, {GATES: 65535})]
    ways += [(11, numbered(base(), c)) for c in ({RAYS: 3}, {RAYS: 720}, {GATES: 2}, {GATES: 4}, {GATES: 1200}, {GATES: 0})]
    ways += [(12, numbered(base(), c)) for c in ({RAYS: 0}, {RAYS: 1}, {RAYS: 0, GATES: 0})]
    ways += [(12, followed(base(), x)) for x in (b"\0", b"\1", b"\3", b"\2\0", b"\2\0\17" + ray, b"\1\0\17" + header, base().bytes())]
    ways += [(3, gated(base(), i, k, m, 0)) for i, k in ((0, 0), (1, 2)) for m in (3, 128, 255)]
    ways += [(5, numbered(base(), {NYQUIST: x})) for x in (0, bits(-1.0), 0x3DFFFFFF, 0x44800001, QUIET, SIGNALLING, INFINITE, 1)]
    options = ({SPLITS: 10000}, {SPLITS: 65535}, {SKIP_RAYS: 1001}, {SKIP_RAYS: 65535}, {SKIP_GATES: 65535})
    ways += [(6, numbered(base(), c)) for c in options]
    ways += [(7, gated(base(), i, k, 1, x)) for i, k in ((0, 0), (1, 2)) for x in (QUIET, SIGNALLING, INFINITE, 0x46800001, 0xC6800001)]
    ways += [(8, sweep(1, 2, [10.001, -10], splits=9999)), (8, gated(base(), 0, 0, 1, bits(-1.0), {NYQUIST: bits(0.125), SPLITS: 9999}))]
    far = (sweep(1, 2, [-2000, 2000], 1.0, 1), sweep(1, 2, [-1001.5, 1001.5], 1.0, 1, options=3), sweep(1, 3, [-1500, 0, 1500], 1.0, 1))
    return ways + [(9, f) for f in far]


def in_pairs():
    """Two faults of different numbers in one file, of which the first decides; but for those that the first leaves nothing of."""
    for (first, one), (second, two) in itertools.combinations(KINDS, 2):
        f = one(two(BASE.copy()))
        if first != second and f.bytes() != one(BASE.copy()).bytes():
            yield first, f


def once(parts):
    """The parts of a list, each of numbers and files, with the files as bytes; no file comes twice."""
    seen = set()
    for part in parts:
        pairs = [(number, f if isinstance(f, bytes) else f.bytes()) for number, f in part]
        yield [(number, f) for number, f in pairs if not (f in seen or seen.add(f))]


def record(oracle, command, lists, many, one):
    """Writes the list to the crate `many` and its first file to the crate `one`, each with what the oracle prints for it by this command, and
    answers the numbers, the files and what was printed for each. Stops where the oracle gives a file another number than it is to get."""
    wanted, files = zip(*(pair for part in lists for pair in part))
    if any(len(f) > 4096 for f in files):
        sys.exit("a file that the program's array does not hold")
    for f, number, expected in zip(files, oracle.numbers(files), wanted, strict=True):
        if number != expected:
            sys.exit(f"{number} where {expected} is expected: {f.hex()}")
    crates = os.path.join(os.path.dirname(os.path.abspath(__file__)), "..", "..", "crates")
    printed = oracle.printed(command, files)
    first = oracle.printed(command, files[:1]).removeprefix("= 0\n")
    for crate, given, text in ((many, listed(files), printed), (one, files[0], first)):
        os.makedirs(os.path.join(crates, crate), exist_ok=True)
        with open(os.path.join(crates, crate, "stdin"), "wb") as out:
            out.write(given)
        with open(os.path.join(crates, crate, "stdout"), "w", encoding="ascii", newline="\n") as out:
            out.write(text)
    print("files", len(files), "bytes", sum(map(len, files)), "parts", [len(part) for part in lists])
    print("numbers:", ", ".join(f"{k} {wanted.count(k)}" for k in sorted(set(wanted))))
    return wanted, files, [text.split("\n", 1)[1] for text in printed.split("= ")[1:]]


def gates_of(file):
    rays, gates = struct.unpack(">HH", file[3:7])
    return rays * gates
