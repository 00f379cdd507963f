//! The wind over the last sweeps: sequences of arrivals at a window, accepted and refused, with faults in the sweep, in the window and in both (arrivals.rs);
//! through the entries' own counts and labels; and single calls on windows that no calls have written. After every call all that is lent is held bit for bit to
//! lists in Rust: the winds of the accepted sweeps by the judge (tests/oracle), sorted afresh at each gate. A program is caught here that takes the upper of
//! two middle winds, counts a masked gate as 0, keeps a sweep too long or too short, asks in another order, compares products of sizes, or writes at a refusal.
use crate::arrivals::{arrival, size, spoil, turned, Lengths, Window, SLICES};
use crate::jivakkol::{jivakkol_dealias_sweep, jivakkol_region_map, jivakkol_window_add};
use crate::velocity::{Given, Kind};
use crate::{lent, on_sweep, Lent};
use radish_oracle::make::Rng;
use std::fmt::Debug;

fn call(a: &Given, w: &mut Window) -> u32 {
    let s = &a.sweep;
    unsafe {
        jivakkol_window_add(
            s.rays as u32, s.gates as u32, s.nyquist, s.velocities.as_ptr(), s.velocities.len(), s.mask.as_ptr(), s.mask.len(),
            a.counts.as_ptr(), a.counts.len(), a.labels.as_ptr(), a.labels.len(), w.words.as_mut_ptr(), w.words.len(),
            w.winds.as_mut_ptr(), w.winds.len(), w.shown.as_mut_ptr(), w.shown.len(), w.picture.as_mut_ptr(), w.picture.len(), w.marks.as_mut_ptr(), w.marks.len(),
        )
    }
}

/// The number that must come, and where it is 0 the sweep's winds: the second entry's questions by the judge, and among them those to the window.
fn judged(a: &Given, w: &Window) -> (u32, Vec<f64>) {
    let (s, (rays, gates)) = (&a.sweep, w.size());
    let (number, winds) = s.unfold(&a.counts, &a.labels, s.rays * s.gates);
    let refused = |number: u32| (number, Vec::new());
    if number == 1 || rays > 720 || gates > 1200 {
        return refused(1);
    }
    let (m, lengths) = (rays * gates, [w.winds.len(), w.shown.len(), w.picture.len(), w.marks.len()]);
    if number == 2 || w.words.len() != 4 || lengths != [8 * m, 8 * m, m, m] || w.words[2] > 8 || w.words[3] > 7 {
        return refused(2);
    }
    match number {
        0 if (s.rays, s.gates) != (rays, gates) => refused(14),
        number => (number, winds),
    }
}

fn same<T: Copy + Debug, B: PartialEq>(name: &str, got: &[T], expected: &[T], bits: impl Fn(T) -> B) -> Result<(), String> {
    match (0..expected.len()).find(|&i| bits(got[i]) != bits(expected[i])) {
        Some(i) => Err(format!("{name} {i} is {:?}, expected {:?}", got[i], expected[i])),
        None => Ok(()),
    }
}

/// Whether a window is as it must be, bit for bit.
fn same_window(got: &Window, expected: &Window) -> Result<(), String> {
    same("word", &got.words, &expected.words, |x| x)?;
    same("wind", &got.winds, &expected.winds, f64::to_bits)?;
    same("shown", &got.shown, &expected.shown, |x| x)?;
    same("picture", &got.picture, &expected.picture, f64::to_bits)?;
    same("mark", &got.marks, &expected.marks, |x| x)
}

/// A window beside what it must be: the accepted sweeps in a list, the oldest first, each gate with its wind if it shows one.
struct Kept {
    lent: Window,
    sweeps: Vec<Vec<Option<f64>>>,
    accepted: usize,
    first_place: usize,
}

impl Kept {
    fn new(lent: Window) -> Kept {
        let m = lent.marks.len();
        let at = |i: usize| if lent.shown[i] == 1 { Some(lent.winds[i]) } else { None };
        let sweeps = lent.places().iter().map(|place| (place * m..(place + 1) * m).map(at).collect()).collect();
        Kept { accepted: 0, first_place: lent.words[3] as usize, sweeps, lent }
    }

    /// At each gate the winds of the last eight sweeps, sorted.
    fn sorted(&self) -> Vec<Vec<f64>> {
        let last = &self.sweeps[self.sweeps.len().saturating_sub(8)..];
        let at = |g: usize| {
            let mut winds: Vec<f64> = last.iter().filter_map(|sweep| sweep[g]).collect();
            winds.sort_by(|a, b| a.partial_cmp(b).expect("two numbers"));
            winds
        };
        (0..self.lent.marks.len()).map(at).collect()
    }

    /// What must be lent after this sweep with these winds is accepted, and the winds over each gate.
    fn accept(&mut self, a: &Given, winds: &[f64]) -> (Window, Vec<Vec<f64>>) {
        let (mut w, m, place) = (self.lent.clone(), winds.len(), (self.first_place + self.accepted) % 8);
        let shown: Vec<Option<f64>> = (0..m).map(|g| if a.kind(g) == Kind::Shown { Some(winds[g]) } else { None }).collect();
        for (g, wind) in shown.iter().enumerate() {
            (w.winds[place * m + g], w.shown[place * m + g]) = (wind.unwrap_or(0.0), wind.is_some() as u8);
        }
        self.sweeps.push(shown);
        self.accepted += 1;
        (w.words[2], w.words[3]) = (self.sweeps.len().min(8) as u32, ((self.first_place + self.accepted) % 8) as u32);
        let sorted = self.sorted();
        for (g, winds) in sorted.iter().enumerate() {
            (w.picture[g], w.marks[g]) = if winds.is_empty() { (0.0, 1) } else { (winds[(winds.len() - 1) / 2], 0) };
        }
        (w, sorted)
    }
}

/// What was compared.
#[derive(Default)]
struct Tally {
    answers: [u64; 15],
    /// Calls with one fault, and with two.
    faulty: [u64; 2],
    lengths: Lengths,
    /// 1 by the sweep's size, and by the window's; 2 with more than eight held, and with a next place above 7; 14 by rays alone, by gates alone, by both with as
    /// many gates in all, by both with other numbers of gates, and of no gates on both sides.
    ones: [u64; 2],
    twos: [u64; 2],
    fourteens: [u64; 5],
    /// Sequences, those with more than eight accepted and those with more than sixteen, and arrivals masked all over that were accepted.
    sequences: u64,
    past: [u64; 2],
    masked: u64,
    /// Gates after an accepted call by how many winds they have, and those of an even number whose two middle ones differ.
    gates: [u64; 9],
    parted: u64,
}

impl Tally {
    /// One call, with faults if asked: its answer. A window with a fault is a copy, so that the next call gets the window itself.
    fn arrive(&mut self, r: &mut Rng, k: &mut Kept, mut a: Given, faulty: bool) -> Result<u32, String> {
        let mut w = k.lent.clone();
        if faulty {
            self.faulty[spoil(r, &mut a, &mut w, &mut self.lengths) - 1] += 1;
            // Two faults may undo each other and leave other words in the window; it is lent as it was.
            w = if judged(&a, &w).0 == 0 { k.lent.clone() } else { w };
        }
        let (expected, winds) = judged(&a, &w);
        let (mut got, before) = (w.clone(), k.accepted);
        let number = call(&a, &mut got);
        let told = |e: String| format!("{e}\n{}\ncounts {:?}, labels {:?}, window {:?}, {before} accepted before", a.sweep.line(), a.counts, a.labels, w.words);
        if number != expected {
            return Err(told(format!("answer {number}, expected {expected}")));
        }
        self.answers[number as usize] += 1;
        if number != 0 {
            self.refused(number, (a.sweep.rays, a.sweep.gates), &w);
            return same_window(&got, &w).map(|_| number).map_err(|e| told(format!("refusal {number}: {e}")));
        }
        let (after, sorted) = k.accept(&a, &winds);
        same_window(&got, &after).map_err(told)?;
        k.lent = got;
        self.masked += (!winds.is_empty() && a.sweep.mask.iter().all(|&m| m == 0)) as u64;
        self.accepted(&sorted);
        Ok(number)
    }

    /// What was amiss with the sweep's size or with the window.
    fn refused(&mut self, number: u32, sweep: (usize, usize), w: &Window) {
        let (window, gates) = (w.size(), |(rays, gates): (usize, usize)| rays * gates);
        let above = |i: usize, most: u32| w.words.get(i).is_some_and(|&x| x > most);
        match number {
            1 => self.ones[(above(0, 720) || above(1, 1200)) as usize] += 1,
            2 => self.twos.iter_mut().zip([above(2, 8), above(3, 7)]).for_each(|(seen, x)| *seen += x as u64),
            14 => {
                let alone = [sweep.1 == window.1, sweep.0 == window.0, gates(sweep) == gates(window)];
                self.fourteens[alone.iter().position(|&x| x).unwrap_or(3)] += 1;
                self.fourteens[4] += (gates(sweep) == 0 && gates(window) == 0) as u64;
            }
            _ => {}
        }
    }

    fn accepted(&mut self, sorted: &[Vec<f64>]) {
        for winds in sorted {
            let n = winds.len();
            self.gates[n] += 1;
            self.parted += (n > 0 && n % 2 == 0 && winds[n / 2 - 1] != winds[n / 2]) as u64;
        }
    }

    fn ended(&mut self, k: &Kept) {
        self.sequences += 1;
        self.past.iter_mut().zip([8, 16]).for_each(|(seen, most)| *seen += (k.accepted > most) as u64);
    }

    /// Made arrivals at an empty window, with faults in some; in a third of the sequences most gates show a wind.
    fn sequence(&mut self, r: &mut Rng) -> Result<(), String> {
        let (rays, gates) = size(r);
        let mut k = Kept::new(Window::empty(r, rays, gates));
        let (full, faults) = (r.below(3) == 0, r.one_of(&[0, 2, 3, 5]));
        for _ in 0..1 + r.below(30) {
            let (a, faulty) = (arrival(r, rays, gates, full), r.below(10) < faults);
            self.arrive(r, &mut k, a, faulty)?;
        }
        self.ended(&k);
        Ok(())
    }

    /// Weather with the counts and labels that the entries give, at an empty window; without a fault none may be refused.
    fn chain(&mut self, r: &mut Rng, (rays, gates): (usize, usize), calls: u64, faults: u64) -> Result<(), String> {
        let mut k = Kept::new(Window::empty(r, rays, gates));
        let mut l = lent(r, rays * gates);
        for _ in 0..calls {
            let rough = r.one_of(&[0.0, 2.0, 8.0]);
            let a = left(r, &mut l, (rays, gates), rough);
            let faulty = r.below(10) < faults;
            let number = self.arrive(r, &mut k, a, faulty)?;
            if number != 0 && !faulty {
                return Err(format!("answer {number} to what the entries left for {rays} x {gates}, roughness {rough}"));
            }
        }
        self.ended(&k);
        Ok(())
    }

    /// The figures, by a name for the calls.
    fn report(&self, name: &str) {
        println!(
            "{name}: {}, by answer {:?}; with one fault {}, with two {}; masked all over and accepted {}; gates after an accepted one with 0 to 8 winds {:?}, with \
             two middle ones that differ {}",
            self.answers.iter().sum::<u64>(), self.answers, self.faulty[0], self.faulty[1], self.masked, self.gates, self.parted
        );
    }
}

/// A weather sweep with the counts and labels that the entries give it.
fn left(r: &mut Rng, l: &mut Lent, (rays, gates): (usize, usize), rough: f64) -> Given {
    let s = turned(r, rays, gates, rough);
    let numbers = [on_sweep!(jivakkol_dealias_sweep, s, l, folds, doubtful, pair), on_sweep!(jivakkol_region_map, s, l, labels, regions)];
    assert_eq!(numbers, [0, 0], "weather of {rays} x {gates}, roughness {rough} is refused");
    Given { sweep: s, counts: l.folds.clone(), labels: l.labels.clone(), unfolded: Vec::new() }
}

fn fail(what: &str, e: String) -> ! {
    println!("DIFFERENT {what}: {e}");
    std::process::exit(1)
}

/// Rays and gates of the large windows.
const LARGE: [(usize, usize); 3] = [(90, 250), (360, 500), (720, 1200)];

/// `count` sequences, a twentieth as many of weather, `count` windows that no calls have written, and the large ones.
pub fn run(count: u64) {
    let mut r = Rng(0x4D2C_6DFC_5AC4_2AED);
    let mut t = Tally::default();
    (0..count).for_each(|_| t.sequence(&mut r).unwrap_or_else(|e| fail("window", e)));
    t.report("arrivals at a window");
    println!(
        "their sequences {}, with more than eight accepted {}, more than sixteen {}; 1 by the sweep's size, the window's {:?}; 2 with too many held, with a next place \
         too far {:?}; 14 by rays, by gates, by both with as many gates in all, by both, and where neither has gates {:?}",
        t.sequences, t.past[0], t.past[1], t.ones, t.twos, t.fourteens
    );
    let off = |k: usize| SLICES.iter().zip(t.lengths[k]).map(|(name, times)| format!("{name} {times}")).collect::<Vec<_>>().join(", ");
    println!("one element too short: {}; too long: {}", off(0), off(1));
    let mut t = Tally::default();
    for _ in 0..count.div_ceil(20) {
        let (size, calls) = ((4 + r.below(17) as usize, 4 + r.below(20) as usize), 1 + r.below(14));
        t.chain(&mut r, size, calls, 2).unwrap_or_else(|e| fail("window of weather", e));
    }
    t.report("arrivals of weather with the entries' counts and labels");
    println!("their sequences {}, with more than eight accepted {}", t.sequences, t.past[0]);
    let mut t = Tally::default();
    for _ in 0..count {
        let ((rays, gates), full) = (size(&mut r), r.below(2) == 0);
        let mut k = Kept::new(Window::unwritten(&mut r, rays, gates));
        let (a, faulty) = (arrival(&mut r, rays, gates, full), r.below(5) == 0);
        t.arrive(&mut r, &mut k, a, faulty).unwrap_or_else(|e| fail("window that no calls have written", e));
    }
    t.report("arrivals at windows that no calls have written");
    for (rays, gates) in LARGE {
        let mut t = Tally::default();
        t.chain(&mut r, (rays, gates), 9, 0).unwrap_or_else(|e| fail("large window", e.chars().take(300).collect()));
        t.report(&format!("arrivals of weather at a window of {rays} x {gates}"));
    }
}
