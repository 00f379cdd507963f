//! Two channels: made pairs (pairs.rs) held to the Rust by the limits of both, to the sweep entry where these are a channel's own, and to themselves with
//! the other channel replaced by one of the same least and greatest velocity. A program is caught here that takes the limits from one channel, asks in
//! another order, puts 8 to a channel's own limits, centres by the other channel, exchanges the two, or writes one where the other is refused.
use crate::jivakkol::jivakkol_dealias_two;
use crate::pairs::{asking, made, replaced, spoil, weathers, Lengths, SLICES};
use crate::{bits, compare as compare_sweep, lent, work_left, Lent};
use radish_oracle::make::Rng;
use radish_oracle::pair::{Asked, Pair, PairAnswer};

const NAMES: [&str; 2] = ["horizontal", "vertical"];

/// What is lent to both channels; the work memory is the first's.
fn lent_two(r: &mut Rng, n: usize) -> [Lent; 2] {
    let mut l = [lent(r, n), lent(r, n)];
    (l[1].words, l[1].floats) = (Vec::new(), Vec::new());
    l
}

/// The lengths of it, as the judge is told them.
fn lengths(l: &[Lent; 2]) -> [radish_oracle::Lent; 2] {
    let (words, floats) = (l[0].words.len(), l[0].floats.len());
    [0, 1].map(|c| radish_oracle::Lent { counts: l[c].folds.len(), doubtful: l[c].doubtful.len(), pair: l[c].pair.len(), words, floats })
}

fn call(p: &Pair, l: &mut [Lent; 2]) -> u32 {
    let ([h, v], [a, b]) = (&p.channels, l);
    unsafe {
        jivakkol_dealias_two(
            h.rays as u32, h.gates as u32, h.nyquist, h.splits, h.skip_between_rays, h.skip_along_ray, h.centred, h.wrap,
            h.velocities.as_ptr(), h.velocities.len(), h.mask.as_ptr(), h.mask.len(),
            v.velocities.as_ptr(), v.velocities.len(), v.mask.as_ptr(), v.mask.len(),
            a.folds.as_mut_ptr(), a.folds.len(), a.doubtful.as_mut_ptr(), a.doubtful.len(), a.pair.as_mut_ptr(), a.pair.len(),
            b.folds.as_mut_ptr(), b.folds.len(), b.doubtful.as_mut_ptr(), b.doubtful.len(), b.pair.as_mut_ptr(), b.pair.len(),
            a.words.as_mut_ptr(), a.words.len(), a.floats.as_mut_ptr(), a.floats.len(),
        )
    }
}

/// The call, held to the judge's answer, and all that is lent to what it must be afterwards.
fn compare(p: &Pair, l: &mut [Lent; 2], a: &PairAnswer) -> Result<(), String> {
    let before = l.clone();
    let number = call(p, l);
    if number != a.number {
        return Err(format!("answer {number}, expected {}, asked of {:?}", a.number, a.asked));
    }
    for (c, name) in NAMES.iter().enumerate() {
        if number != 0 {
            if l[c].folds != before[c].folds || l[c].doubtful != before[c].doubtful || l[c].pair != before[c].pair {
                return Err(format!("refusal {number}, asked of {:?}, changed counts, marks or pair of {name}", a.asked));
            }
            continue;
        }
        let x = &a.channels[c];
        if let Some(g) = (0..x.counts.len()).find(|&g| l[c].folds[g] != x.counts[g]) {
            return Err(format!("{name}: count {} at gate {g}, expected {}", l[c].folds[g], x.counts[g]));
        }
        if let Some(g) = (0..x.doubtful.len()).find(|&g| l[c].doubtful[g] != x.doubtful[g]) {
            return Err(format!("{name}: mark {} at gate {g}, expected {}", l[c].doubtful[g], x.doubtful[g]));
        }
        if l[c].pair != [x.regions, x.merges] {
            return Err(format!("{name}: pair {:?}, expected {} and {}", l[c].pair, x.regions, x.merges));
        }
    }
    let n = p.channels[0].rays * p.channels[0].gates;
    work_left(n, number == 0 || number == 9, &before[0], &l[0]).map_err(|e| format!("answer {number}, work memory: {e}"))
}

/// Whether two channels got the same counts, marks and pair.
fn alike(a: &Lent, b: &Lent) -> bool {
    a.folds == b.folds && a.doubtful == b.doubtful && a.pair == b.pair
}

/// What was compared. Of two numbers the first is horizontal's, the second vertical's.
#[derive(Default)]
struct Tally {
    answers: [u64; 10],
    /// Refusals of horizontal, of vertical, and of the limits of both.
    asked: [u64; 3],
    /// Those of horizontal where vertical's number by itself is smaller, so that the order of the questions is seen.
    smaller: u64,
    /// 8 where neither channel is refused by itself.
    neither: u64,
    /// 9 to horizontal alone, to vertical alone, to both.
    nines: [u64; 3],
    /// Channels held to the sweep entry, their own limits being those of both.
    by_itself: u64,
    /// Accepted channels whose own limits are others, and those of them whose counts by `dealias_sweep`, which goes by these, are others.
    other_limits: [u64; 2],
    other_counts: [u64; 2],
    /// Accepted channels with a mark, and accepted pairs centred by two offsets.
    marked: [u64; 2],
    two_offsets: u64,
    /// Accepted pairs with a channel replaced, and refused ones.
    beside: u64,
    beside_refused: u64,
}

impl Tally {
    /// A pair with the memory lent to it.
    fn compare(&mut self, r: &mut Rng, p: &Pair, l: &mut [Lent; 2]) -> Result<(), String> {
        let a = p.answer(lengths(l));
        compare(p, l, &a)?;
        let vertical = p.channels[1].refused_before_limits(Some(lengths(l)[1]));
        self.smaller += (vertical != 0 && vertical < a.number) as u64;
        self.answers[a.number as usize] += 1;
        if let Some(asked) = a.asked {
            self.asked[asked as usize] += 1;
        }
        if a.asked == Some(Asked::Limits) {
            self.neither += p.channels.iter().all(|s| s.own_limits().is_some()) as u64;
        }
        if a.number == 9 {
            self.nines[if a.channels[0].number == 0 { 1 } else if a.channels[1].number == 0 { 0 } else { 2 }] += 1;
        }
        if a.number == 0 {
            self.two_offsets += (a.channels[0].offset != a.channels[1].offset) as u64;
        }
        (0..a.channels.len()).try_for_each(|c| self.by_own_limits(r, p, l, &a, c))
    }

    /// A channel of a pair that passes questions 1 to 8 beside itself by its own limits, where `dealias_sweep` says its counts.
    fn by_own_limits(&mut self, r: &mut Rng, p: &Pair, l: &[Lent; 2], a: &PairAnswer, c: usize) -> Result<(), String> {
        let (s, x) = (&p.channels[c], &a.channels[c]);
        let (own, shared) = (s.own_limits().expect("no more limits than both have"), p.limits().unwrap());
        if bits(&own) == bits(&shared) {
            let mut one = lent(r, s.mask.len());
            compare_sweep(s, &mut one, x.number).map_err(|e| format!("{} by itself: {e}", NAMES[c]))?;
            if a.number == 0 && !alike(&one, &l[c]) {
                return Err(format!("{}: the sweep entry gives it another answer", NAMES[c]));
            }
            self.by_itself += 1;
        } else if a.number == 0 {
            self.other_limits[c] += 1;
            self.other_counts[c] += (s.counts() != x.counts) as u64;
        }
        self.marked[c] += (a.number == 0 && x.doubtful.contains(&1)) as u64;
        Ok(())
    }

    /// An accepted pair, and what the call left of it, beside the same with one channel replaced: the other must get what it got.
    fn compare_beside(&mut self, r: &mut Rng, p: &Pair, l: &[Lent; 2]) -> Result<(), String> {
        let kept = r.below(2) as usize;
        let mut q = p.clone();
        q.channels[1 - kept] = replaced(r, &p.channels[1 - kept]);
        assert_eq!(bits(&q.limits().unwrap()), bits(&p.limits().unwrap()), "the replaced channel has another least or greatest velocity");
        let mut m = lent_two(r, p.channels[0].mask.len());
        let a = q.answer(lengths(&m));
        let told = |e: String| format!("{} beside a replaced channel: {e}\n{}", NAMES[kept], q.lines());
        compare(&q, &mut m, &a).map_err(told)?;
        if a.number == 0 && !alike(&l[kept], &m[kept]) {
            return Err(told("another answer".into()));
        }
        self.beside += (a.number == 0) as u64;
        self.beside_refused += (a.number != 0) as u64;
        Ok(())
    }
}

fn fail(what: &str, lines: String, e: String) -> ! {
    println!("DIFFERENT {what}: {e}\n{lines}");
    std::process::exit(1)
}

/// Rays, gates and roughness of the weather, and whether it goes beyond Nyquist.
const WEATHER: [(usize, usize, f64, bool); 9] = [
    (90, 250, 0.0, false), (90, 250, 2.0, false), (90, 250, 2.0, true), (90, 250, 8.0, true), (360, 500, 0.0, true), (360, 500, 2.0, true),
    (360, 1000, 2.0, false), (720, 1200, 0.0, true), (720, 1200, 2.0, true),
];

/// `count` small pairs, half as many with faults, a few with limits at both sides of 10,000, and weather.
pub fn run(count: u64) {
    let mut r = Rng(0x7F4A_9E21_C3B5_8D06);
    let mut t = Tally::default();
    // Seeds that no other part uses.
    for seed in (1 << 42..).take(count as usize) {
        let p = made(&mut r, seed);
        let mut l = lent_two(&mut r, p.channels[0].mask.len());
        let before = t.answers[0];
        let compared = t.compare(&mut r, &p, &mut l);
        let beside = t.answers[0] > before && r.below(4) == 0;
        compared.and_then(|_| if beside { t.compare_beside(&mut r, &p, &l) } else { Ok(()) }).unwrap_or_else(|e| fail("pair", p.lines(), e));
    }
    println!(
        "pairs of channels: {count}, by answer {:?}; refusals asked of horizontal, vertical, the limits of both {:?}; 8 where neither is refused by \
         itself {}; 9 to horizontal alone, vertical alone, both {:?}",
        t.answers, t.asked, t.neither, t.nines
    );
    println!(
        "their channels held to the sweep entry {}; accepted with other limits than horizontal's own, vertical's own {:?}, and by these other counts {:?}; \
         with marks {:?}; centred by two offsets {}; channels beside a replaced one {}, and refused there {}",
        t.by_itself, t.other_limits, t.other_counts, t.marked, t.two_offsets, t.beside, t.beside_refused
    );
    let (mut t, mut seen) = (Tally::default(), Lengths::default());
    for seed in ((1 << 42) + (1 << 41)..).take(count as usize / 2) {
        let mut p = made(&mut r, seed);
        let mut l = lent_two(&mut r, p.channels[0].mask.len());
        spoil(&mut r, &mut p, &mut l, &mut seen);
        t.compare(&mut r, &p, &mut l).unwrap_or_else(|e| fail("pair with faults", p.lines(), e));
    }
    println!(
        "pairs with faults: {}, by answer {:?}; refusals asked of horizontal, vertical, the limits of both {:?}; of horizontal where vertical's number is \
         smaller {}",
        count / 2, t.answers, t.asked, t.smaller
    );
    let off = |k: usize| SLICES.iter().zip(seen[k]).map(|(name, times)| format!("{name} {times}")).collect::<Vec<_>>().join(", ");
    println!("one element too short: {}; too long: {}", off(0), off(1));
    let mut t = Tally::default();
    for _ in 0..count.div_ceil(100) {
        let limits = r.one_of(&[9_999, 10_000, 10_001, 10_001, 10_001, 10_002, 10_500, 15_000]);
        let p = asking(&mut r, limits);
        assert_eq!(p.limits().map(|l| l.len() as u64), if limits > 10_000 { None } else { Some(limits) });
        let mut l = lent_two(&mut r, p.channels[0].mask.len());
        t.compare(&mut r, &p, &mut l).unwrap_or_else(|e| fail("pair that asks for many limits", p.lines(), e));
    }
    println!(
        "pairs that ask for 9,999 limits or more: {}, by answer {:?}; 8 where neither is refused by itself {}; accepted with other counts than by \
         horizontal's own, vertical's own {:?}",
        count.div_ceil(100), t.answers, t.neither, t.other_counts
    );
    for (rays, gates, rough, beyond) in WEATHER {
        let name = format!("{rays} x {gates}, roughness {rough}{}", if beyond { ", beyond Nyquist" } else { "" });
        let (p, mut l, mut t) = (weathers(rays, gates, rough, beyond), lent_two(&mut r, rays * gates), Tally::default());
        t.compare(&mut r, &p, &mut l).unwrap_or_else(|e| fail("weather pair", name.clone(), e));
        let marked = [0, 1].map(|c| l[c].doubtful.iter().filter(|d| **d == 1).count());
        assert_eq!((t.answers[0], t.other_limits), (1, [beyond as u64; 2]));
        println!(
            "weather pair {name}: regions {:?}, merges {:?}, gates marked {marked:?}, equal; other limits than their own {:?}, and by these other counts {:?}",
            [0, 1].map(|c| l[c].pair[0]), [0, 1].map(|c| l[c].pair[1]), t.other_limits, t.other_counts
        );
    }
}
