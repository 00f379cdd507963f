//! Made arrivals at a window, and what is lent of it: sweeps of one size with other Nyquists, masks, labels and counts, equal winds among them; and faults in
//! the sweep, in the window and in both.
use crate::pairs::resize;
use crate::velocity::{beyond, label, relabelled, within, Given, Kind};
use radish_oracle::make::{sized, weather, Rng};
use radish_oracle::Sweep;

/// What is lent of a window: its four words, the winds and the bytes that say where one is shown, the picture and its marks.
#[derive(Clone)]
pub struct Window {
    pub words: Vec<u32>,
    pub winds: Vec<f64>,
    pub shown: Vec<u8>,
    pub picture: Vec<f64>,
    pub marks: Vec<u8>,
}

/// Any bits, often those of no number.
fn any(r: &mut Rng) -> f64 {
    match r.below(4) {
        0 => r.one_of(&[f64::NAN, f64::INFINITY, f64::NEG_INFINITY, -0.0, 1e300]),
        _ => f64::from_bits(r.next()),
    }
}

/// A number that may stand in a window: often one of a few, the ends of the range among them. No call writes -0.0, and which of the two zeros comes
/// first in a median no paper says.
fn number(r: &mut Rng) -> f64 {
    match r.below(3) {
        0 => r.one_of(&[0.0, 1.0, -1.0, 1.5, 5e-324, f64::MAX, f64::MIN, f64::INFINITY, f64::NEG_INFINITY]),
        1 => r.below(9) as f64 - 4.0,
        _ => (r.unit() * 2.0 - 1.0) * 20_000.0,
    }
}

impl Window {
    /// An empty one, its memory full of any bits; half of the bytes of `shown` are 1.
    pub fn empty(r: &mut Rng, rays: usize, gates: usize) -> Window {
        let m = rays * gates;
        Window {
            words: vec![rays as u32, gates as u32, 0, 0],
            winds: (0..8 * m).map(|_| any(r)).collect(),
            shown: (0..8 * m).map(|_| if r.below(2) == 0 { 1 } else { r.next() as u8 }).collect(),
            picture: (0..m).map(|_| any(r)).collect(),
            marks: (0..m).map(|_| r.next() as u8).collect(),
        }
    }

    /// One that no calls have written: any number of sweeps held, any next place. Where they show a wind it is a number; all else may be any bits.
    pub fn unwritten(r: &mut Rng, rays: usize, gates: usize) -> Window {
        let mut w = Window::empty(r, rays, gates);
        (w.words[2], w.words[3]) = (r.below(9) as u32, r.below(8) as u32);
        let often = r.below(4) > 0;
        for place in w.places() {
            for i in place * rays * gates..(place + 1) * rays * gates {
                w.shown[i] = if often && r.below(4) > 0 { 1 } else { w.shown[i] };
                w.winds[i] = if w.shown[i] == 1 { number(r) } else { w.winds[i] };
            }
        }
        w
    }

    /// Rays and gates, a missing word being 0.
    pub fn size(&self) -> (usize, usize) {
        let word = |i: usize| self.words.get(i).map_or(0, |&x| x as usize);
        (word(0), word(1))
    }

    /// The places of the sweeps held, the oldest first.
    pub fn places(&self) -> Vec<usize> {
        let (held, next) = (self.words[2] as usize, self.words[3] as usize);
        (0..held).map(|i| (next + 8 - held + i) % 8).collect()
    }

    /// The words of a size.
    fn say(&mut self, (rays, gates): (usize, usize)) {
        (self.words[0], self.words[1]) = (rays as u32, gates as u32);
    }

    /// A size with memory to fit.
    fn to_size(&mut self, (rays, gates): (usize, usize)) {
        self.say((rays, gates));
        self.to_gates(rays * gates);
    }

    /// Memory for so many gates.
    fn to_gates(&mut self, m: usize) {
        self.winds.resize(8 * m, 1.0);
        self.shown.resize(8 * m, 1);
        self.picture.resize(m, 1.0);
        self.marks.resize(m, 7);
    }
}

/// A window's rays and gates: few gates, in some none, seldom the most rays or gates.
pub fn size(r: &mut Rng) -> (usize, usize) {
    match r.below(400) {
        0 => r.one_of(&[(720, 1), (1, 1200)]),
        1..=30 => r.one_of(&[(0, 0), (0, 1), (1, 0), (0, 4), (4, 0), (0, 5), (5, 0), (0, 1200), (720, 0)]),
        31..=60 => (1, 1 + r.below(40) as usize),
        61..=90 => (1 + r.below(40) as usize, 1),
        _ => (1 + r.below(6) as usize, 1 + r.below(7) as usize),
    }
}

/// Whole velocities and a Nyquist by which whole folds are whole too: winds that are equal by other velocities, counts and Nyquists.
fn level(r: &mut Rng, s: &mut Sweep) {
    s.nyquist = r.one_of(&[0.5, 1.0, 2.0]);
    let most = r.one_of(&[0, 1, 2, 5]);
    s.velocities.iter_mut().for_each(|v| *v = if r.below(9) == 0 { -0.0 } else { r.below(2 * most + 1) as f32 - most as f32 });
    s.mask.iter_mut().for_each(|m| *m = 1);
}

/// More masked gates: all, runs of them, or one in ten; or none.
fn mask(r: &mut Rng, valid: &mut [u8]) {
    let n = valid.len();
    match r.below(8) {
        0 => valid.fill(0),
        1 | 2 => {
            let mut from = r.below(8) as usize;
            while from < n {
                let (hole, echo) = (1 + r.below(6) as usize, 1 + r.below(9) as usize);
                valid[from..n.min(from + hole)].fill(0);
                from += hole + echo;
            }
        }
        3 => valid.iter_mut().filter(|_| r.below(10) == 0).for_each(|m| *m = 0),
        _ => {}
    }
}

/// What arrives: made velocities of all sorts or level ones. A few are refused by themselves. Of a full one most gates show a wind.
pub fn arrival(r: &mut Rng, rays: usize, gates: usize, full: bool) -> Given {
    let mut s = sized(r.next(), rays, gates);
    let levelled = r.below(2) == 0;
    if levelled {
        level(r, &mut s);
    }
    if full {
        s.mask.iter_mut().zip(&s.velocities).for_each(|(m, v)| *m = (v.abs() <= 16384.0) as u8);
    } else {
        mask(r, &mut s.mask);
    }
    let mut labels: Vec<u32> = s.velocities.iter().map(|_| label(r)).collect();
    if !full && r.below(2) == 0 {
        labels = relabelled(r, &labels);
    }
    let mut a = Given { sweep: s, counts: vec![0; labels.len()], labels, unfolded: Vec::new() };
    if r.below(6) == 0 {
        return a.with_counts(r).with_velocities(r);
    }
    let wild = r.below(3) == 0;
    for g in 0..a.counts.len() {
        a.counts[g] = match a.kind(g) {
            Kind::Shown if levelled => r.below(3) as i32 - 1,
            Kind::Shown => within(r),
            _ => if wild { beyond(r) } else { within(r) },
        };
    }
    a
}

/// Weather turned by any number of rays, so that holes are elsewhere, and by another Nyquist.
pub fn turned(r: &mut Rng, rays: usize, gates: usize, rough: f64) -> Sweep {
    let mut s = weather(r.next(), rays, gates, rough);
    let (by, scale) = (r.below(rays.max(1) as u64) as usize * gates, r.one_of(&[1.0f32, 1.0, 0.5, 2.0, 0.7]));
    s.velocities.rotate_left(by);
    s.mask.rotate_left(by);
    s.velocities.iter_mut().for_each(|v| *v *= scale);
    s.nyquist *= scale;
    s
}

/// The nine slices, by their place in the call.
pub const SLICES: [&str; 9] = ["velocity", "valid", "folds", "labels", "window", "winds", "shown", "picture", "marks"];

/// How often each slice was one element too short, and one too long.
pub type Lengths = [[u64; 9]; 2];

/// One slice one element too short or too long.
fn length_off(r: &mut Rng, a: &mut Given, w: &mut Window, seen: &mut Lengths) {
    fn by_one<T: Default + Clone>(slice: &mut Vec<T>, longer: bool) -> bool {
        let asked = slice.len();
        resize(slice, asked, longer)
    }
    let (slice, longer) = (r.below(9) as usize, r.below(2) == 0);
    let longer = match SLICES[slice] {
        "velocity" => by_one(&mut a.sweep.velocities, longer),
        "valid" => by_one(&mut a.sweep.mask, longer),
        "folds" => by_one(&mut a.counts, longer),
        "labels" => by_one(&mut a.labels, longer),
        "window" => by_one(&mut w.words, longer),
        "winds" => by_one(&mut w.winds, longer),
        "shown" => by_one(&mut w.shown, longer),
        "picture" => by_one(&mut w.picture, longer),
        _ => by_one(&mut w.marks, longer),
    };
    seen[longer as usize][slice] += 1;
}

/// A size other than this, by rays, by gates or by both, often with as many gates in all.
fn other(r: &mut Rng, (rays, gates): (usize, usize)) -> (usize, usize) {
    let by = 1 + r.below(2) as usize;
    let size = match r.below(9) {
        0 => (rays + by, gates),
        1 => (rays, gates + by),
        2 => (rays.saturating_sub(by), gates),
        3 => (rays, gates.saturating_sub(by)),
        4 | 5 => (gates, rays),
        6 => (rays * gates, 1),
        7 => (1, rays * gates),
        _ => (rays * 2, gates / 2),
    };
    if size == (rays, gates) { (rays + 1, gates) } else { size }
}

/// A size above the limits, often by one.
fn above(r: &mut Rng, (rays, gates): (usize, usize)) -> (usize, usize) {
    let far = [65_536, 1 << 31, u32::MAX as usize];
    match r.below(6) {
        0 | 1 => (721, gates),
        2 | 3 => (rays, 1201),
        4 => (r.one_of(&far), gates),
        _ => (rays, r.one_of(&far)),
    }
}

/// A sweep's size, with slices to fit.
fn to_size(a: &mut Given, (rays, gates): (usize, usize)) {
    let n = rays * gates;
    (a.sweep.rays, a.sweep.gates) = (rays, gates);
    a.sweep.velocities.resize(n, 1.0);
    a.sweep.mask.resize(n, 1);
    a.counts.resize(n, 0);
    a.labels.resize(n, 1);
}

/// The kinds of faults; those below the first number change a size.
const SIZES: u64 = 10;
const KINDS: u64 = 24;

/// One fault in the sweep or in the window. Those of a higher kind can be added to those of a lower.
fn fault(r: &mut Rng, kind: u64, a: &mut Given, w: &mut Window, seen: &mut Lengths) {
    let (sweep, window) = ((a.sweep.rays, a.sweep.gates), w.size());
    match kind {
        // Above question 1's limits, the slices as before or to fit.
        0 => (a.sweep.rays, a.sweep.gates) = above(r, sweep),
        1 => to_size(a, r.one_of(&[(721, 0), (721, 1), (0, 1201), (1, 1201)])),
        2 => w.say(above(r, window)),
        3 => w.to_size(r.one_of(&[(721, 0), (721, 1), (0, 1201), (1, 1201)])),
        // Of another size, the slices to fit.
        4 | 5 => to_size(a, other(r, window)),
        6 => w.to_size(other(r, sweep)),
        // The sweep of another size, the window's memory of the sweep's size; or slices as before.
        7 => {
            to_size(a, other(r, window));
            w.to_gates(a.labels.len());
        }
        8 => (a.sweep.rays, a.sweep.gates) = other(r, window),
        9 => w.say(other(r, sweep)),
        // What questions 3, 5, 7 and 10 ask of the sweep.
        10..=15 => a.change(r),
        16 | 17 => w.words[2] = r.one_of(&[9, 9, 10, 16, 256, 1 << 31, u32::MAX]),
        18 | 19 => w.words[3] = r.one_of(&[8, 8, 9, 16, 256, 1 << 31, u32::MAX]),
        20 => w.words.truncate(r.below(4) as usize),
        _ => length_off(r, a, w, seen),
    }
}

/// One fault, or two: how many. Of two the second changes no size, so that sweep and window do not get to one size by both.
pub fn spoil(r: &mut Rng, a: &mut Given, w: &mut Window, seen: &mut Lengths) -> usize {
    let mut kinds = vec![r.below(KINDS)];
    if r.below(3) == 0 {
        kinds.push(SIZES + r.below(KINDS - SIZES));
    }
    kinds.sort();
    kinds.iter().for_each(|&kind| fault(r, kind, a, w, seen));
    kinds.len()
}
