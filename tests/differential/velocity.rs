//! The second entry: with the counts and labels that the entries left, with others made up, with faults, and with lengths that are off. Each call is held to
//! the judge (tests/oracle): the answer's number, and every bit that is written or must stay. A program is caught here that asks 10 of a gate that shows no
//! wind, or does not ask 7 of it, gives it its velocity, takes label 1 alone for a label, does not ask how long the labels are, or writes at a refusal.
use crate::jivakkol::jivakkol_unfold_velocity;
use crate::records::gapped;
use crate::{bits, compare_both, lent};
use radish_oracle::make::{small, Rng};
use radish_oracle::Sweep;

/// One call with velocities lent: its answer's number.
pub fn compare(s: &Sweep, counts: &[i32], labels: &[u32], unfolded: &mut [f64]) -> Result<u32, String> {
    let before = bits(unfolded);
    let number = unsafe {
        jivakkol_unfold_velocity(
            s.rays as u32, s.gates as u32, s.nyquist, s.velocities.as_ptr(), s.velocities.len(), s.mask.as_ptr(), s.mask.len(),
            counts.as_ptr(), counts.len(), labels.as_ptr(), labels.len(), unfolded.as_mut_ptr(), unfolded.len(),
        )
    };
    let (expected, wind) = s.unfold(counts, labels, unfolded.len());
    if number != expected {
        return Err(format!("velocity: answer {number}, expected {expected}"));
    }
    let left = if number == 0 { bits(&wind) } else { before };
    match (0..left.len()).find(|&g| unfolded[g].to_bits() != left[g]) {
        Some(g) => Err(format!("velocity: answer {number}, {:?} at gate {g}, expected {:?}", unfolded[g], f64::from_bits(left[g]))),
        None => Ok(number),
    }
}

/// The call with the counts and labels that the entries left for the sweep; it must not be refused.
pub fn compare_left(s: &Sweep, counts: &[i32], labels: &[u32]) -> Result<(), String> {
    match compare(s, counts, labels, &mut vec![7.0; counts.len()])? {
        0 => Ok(()),
        number => Err(format!("velocity: answer {number} to what the entries left")),
    }
}

/// What a call is given and lent. A window (windows.rs) is given the same; no velocities are lent to it.
#[derive(Clone)]
pub struct Given {
    pub sweep: Sweep,
    pub counts: Vec<i32>,
    pub labels: Vec<u32>,
    pub unfolded: Vec<f64>,
}

/// Labels that few maps have, or none; among them some that a program would take for 0 that looks at low bits alone.
const LABELS: [u32; 9] = [1, 2, 3, 255, 256, 65_536, 1 << 24, 1 << 31, u32::MAX];
const NO_VELOCITIES: [f32; 7] = [f32::NAN, f32::INFINITY, f32::NEG_INFINITY, 16385.0, -16385.0, 16384.002, -16384.002];
/// The ends of question 5's range, and what it does not take.
const NYQUISTS: [f32; 8] = [0.125, 1024.0, 0.0, -1.0, 0.12499999, 1024.0001, f32::NAN, f32::INFINITY];

/// Any label but 0.
pub fn label(r: &mut Rng) -> u32 {
    if r.below(3) > 0 { r.one_of(&LABELS) } else { (r.next() as u32).max(1) }
}

/// A count that question 10 takes, often the last.
pub fn within(r: &mut Rng) -> i32 {
    if r.below(4) == 0 { r.one_of(&[-2000, -1999, -1, 0, 1, 1999, 2000]) } else { r.below(4001) as i32 - 2000 }
}

/// A count that question 10 does not take, often the first; any i32 in some cases, of which few are within.
pub fn beyond(r: &mut Rng) -> i32 {
    if r.below(3) > 0 { r.one_of(&[-2001, 2001, -2001, 2001, 65_536, -65_536, i32::MIN, i32::MAX]) } else { r.next() as i32 }
}

/// These labels with some put to 0 and some zeros to a label, also at masked gates; in some cases none stays, or no 0.
pub fn relabelled(r: &mut Rng, labels: &[u32]) -> Vec<u32> {
    let (taken, given) = r.one_of(&[(0, 0), (1, 1), (3, 3), (1, 8), (8, 1), (10, 0), (0, 10)]);
    let changed = |&l: &u32| match r.below(10) {
        part if l == 0 && part < given => label(r),
        part if l != 0 && part < taken => 0,
        _ => l,
    };
    labels.iter().map(changed).collect()
}

/// What a gate is to the second entry.
#[derive(Clone, Copy, PartialEq)]
pub enum Kind {
    Shown,
    Masked,
    Unlabelled,
}

impl Given {
    /// Of a sweep with such labels; what is lent holds any bits.
    fn new(r: &mut Rng, s: &Sweep, labels: Vec<u32>) -> Given {
        let unfolded = labels.iter().map(|_| f64::from_bits(r.next())).collect();
        Given { sweep: s.clone(), counts: vec![0; labels.len()], labels, unfolded }
    }

    pub fn kind(&self, g: usize) -> Kind {
        match (self.sweep.mask[g], self.labels[g]) {
            (1, 0) => Kind::Unlabelled,
            (1, _) => Kind::Shown,
            _ => Kind::Masked,
        }
    }

    fn gates(&self, kind: Kind) -> Vec<usize> {
        (0..self.labels.len()).filter(|&g| self.kind(g) == kind).collect()
    }

    /// Some counts beyond 2,000 where no wind is shown. Where one is shown none in half of the cases, else a single one or a few.
    pub fn with_counts(mut self, r: &mut Rng) -> Given {
        let (few, others) = (r.below(4) == 0, r.one_of(&[0, 3, 10]));
        for g in 0..self.counts.len() {
            let wild = if self.kind(g) == Kind::Shown { few && r.below(50) == 0 } else { r.below(10) < others };
            self.counts[g] = if wild { beyond(r) } else { within(r) };
        }
        let shown = self.gates(Kind::Shown);
        if !few && !shown.is_empty() && r.below(3) == 0 {
            self.counts[r.one_of(&shown)] = beyond(r);
        }
        self
    }

    /// In some cases one or two valid gates of label 0 get what is no velocity.
    pub fn with_velocities(mut self, r: &mut Rng) -> Given {
        let unlabelled = self.gates(Kind::Unlabelled);
        if !unlabelled.is_empty() && r.below(5) == 0 {
            (0..1 + r.below(2)).for_each(|_| self.sweep.velocities[r.one_of(&unlabelled)] = r.one_of(&NO_VELOCITIES));
        }
        self
    }

    /// One change that misses question 3, 5, 7 or 10, or nearly does.
    pub fn change(&mut self, r: &mut Rng) {
        let n = self.labels.len() as u64;
        let (g, s) = (r.below(n.max(1)) as usize, &mut self.sweep);
        match r.below(4) {
            0 if n > 0 => s.mask[g] = 2 + r.below(254) as u8,
            1 if n > 0 => (s.mask[g], s.velocities[g]) = (1, r.one_of(&NO_VELOCITIES)),
            2 if n > 0 => (s.mask[g], self.counts[g]) = (1, beyond(r)),
            _ => s.nyquist = r.one_of(&NYQUISTS),
        }
    }

    /// One to three such changes; in half of the cases with no label at all.
    fn with_faults(mut self, r: &mut Rng) -> Given {
        if r.below(2) == 0 {
            self.labels.fill(0);
        }
        (0..1 + r.below(3)).for_each(|_| self.change(r));
        self
    }

    /// Some of the five slices, by the bits of a number, one longer or one shorter.
    fn with_lengths(mut self, slices: u64, longer: bool) -> Given {
        fn change<T>(slice: &mut Vec<T>, changed: u64, longer: bool, last: T) {
            if changed % 2 == 1 && longer {
                slice.push(last);
            } else if changed % 2 == 1 {
                slice.pop();
            }
        }
        change(&mut self.sweep.velocities, slices, longer, 1.0);
        change(&mut self.sweep.mask, slices >> 1, longer, 1);
        change(&mut self.counts, slices >> 2, longer, 1);
        change(&mut self.labels, slices >> 3, longer, 1);
        change(&mut self.unfolded, slices >> 4, longer, 7.0);
        self
    }
}

/// What was compared: calls of each sort by their answer, and those of all sorts with no label at all; gates of the accepted ones by kind; accepted ones with a
/// count beyond 2,000 at a masked gate, at a valid gate of label 0, and at such a gate where others show a wind; 7s in which all that is no velocity is at
/// valid gates of label 0; and 10s by a single count.
#[derive(Default)]
struct Tally {
    answers: [[u64; 11]; 4],
    bare: [u64; 11],
    gates: [u64; 3],
    beyond: [u64; 3],
    sevens: u64,
    single_tens: u64,
}

/// The sorts of calls: with what the entries left, made up, with faults, with lengths that are off.
const LEFT: usize = 0;
const MADE_UP: usize = 1;
const FAULTY: usize = 2;
const OFF: usize = 3;

impl Tally {
    /// One call; where it differs, with all that it was given.
    fn compare(&mut self, sort: usize, c: &Given) -> Result<(), String> {
        let mut unfolded = c.unfolded.clone();
        let said = |e: String| format!("{e}\n{}\ncounts {:?}, labels {:?}, {} lent", c.sweep.line(), c.counts, c.labels, c.unfolded.len());
        let number = compare(&c.sweep, &c.counts, &c.labels, &mut unfolded).map_err(said)?;
        self.answers[sort][number as usize] += 1;
        self.bare[number as usize] += c.labels.iter().all(|&l| l == 0) as u64;
        match number {
            0 => self.accepted(c),
            7 => self.sevens += c.gates(Kind::Shown).iter().all(|&g| c.sweep.velocities[g].abs() <= 16384.0) as u64,
            10 => self.single_tens += (self.beyond(c, Kind::Shown) == 1) as u64,
            _ => {}
        }
        Ok(())
    }

    /// How many gates of a kind have a count beyond 2,000.
    fn beyond(&self, c: &Given, kind: Kind) -> usize {
        c.gates(kind).iter().filter(|&&g| !(-2000..=2000).contains(&c.counts[g])).count()
    }

    fn accepted(&mut self, c: &Given) {
        let kinds = [Kind::Shown, Kind::Masked, Kind::Unlabelled];
        self.gates.iter_mut().zip(kinds).for_each(|(seen, kind)| *seen += c.gates(kind).len() as u64);
        let unlabelled = self.beyond(c, Kind::Unlabelled) > 0;
        self.beyond[0] += (self.beyond(c, Kind::Masked) > 0) as u64;
        self.beyond[1] += unlabelled as u64;
        self.beyond[2] += (unlabelled && !c.gates(Kind::Shown).is_empty()) as u64;
    }

    /// All calls with one sweep; where the entries answer 0, the first is with what they left.
    fn compare_all(&mut self, r: &mut Rng, s: &Sweep) -> Result<(), String> {
        let mut l = lent(r, s.rays * s.gates);
        let (number, _) = compare_both(s, &mut l, s.answer().number).map_err(|e| format!("{e}\n{}", s.line()))?;
        if number == 0 {
            self.compare(LEFT, &Given { counts: l.folds, ..Given::new(r, s, l.labels.clone()) })?;
        }
        let labels = relabelled(r, &l.labels);
        let mut c = Given::new(r, s, labels).with_counts(r).with_velocities(r);
        self.compare(MADE_UP, &c)?;
        self.compare(FAULTY, &c.clone().with_faults(r))?;
        // In a tenth of the cases question 1 is missed too.
        match r.below(20) {
            0 => c.sweep.rays += 721,
            1 => c.sweep.gates += 1201,
            _ => {}
        }
        for slices in [1, 2, 4, 8, 16, 1 + r.below(31)] {
            self.compare(OFF, &c.clone().with_lengths(slices, true))?;
            if !c.labels.is_empty() {
                self.compare(OFF, &c.clone().with_lengths(slices, false))?;
            }
        }
        Ok(())
    }
}

/// `count` small sweeps, half of them with valid gates of label 0 strewn in.
pub fn run(count: u64) {
    let mut r = Rng(0x3C79_AC49_2BA7_B653);
    let mut t = Tally::default();
    // Seeds that no other part uses.
    for seed in (1 << 42..).take(count as usize) {
        let s = if seed % 2 == 0 { gapped(&mut r) } else { small(seed, 10 + seed % 118) };
        t.compare_all(&mut r, &s).unwrap_or_else(|e| {
            println!("DIFFERENT second entry: {e}");
            std::process::exit(1)
        });
    }
    println!(
        "calls of the second entry, of {count} small sweeps, by answer: with what the entries left {:?}, made up {:?}, with faults {:?}, lengths off {:?}",
        t.answers[LEFT], t.answers[MADE_UP], t.answers[FAULTY], t.answers[OFF]
    );
    println!("of them with no label at all {:?}; the accepted have gates that show a wind {}, masked {}, valid of label 0 {}", t.bare, t.gates[0], t.gates[1], t.gates[2]);
    println!(
        "accepted with a count beyond 2,000 at a masked gate {}, at a valid gate of label 0 {}, of these where others show a wind {}; 7 by valid gates of label 0 alone {}; \
         10 by one count {}",
        t.beyond[0], t.beyond[1], t.beyond[2], t.sevens, t.single_tens
    );
}
