//! Marks: sweeps with many merges at and beside a near tie, compared with the Rust, and what these merges were. A program is caught here that
//! leaves out the distance itself, marks the base too, leaves a node unmarked that moves by 0, or tests the rounded number.
use crate::records::stages::stage_doubtful;
use crate::{compare, lent};
use radish_oracle::is_doubtful;
use radish_oracle::make::{doubtful, Rng};

/// What a number has above the whole number below it, its sign left out; exact in f64.
fn part(x: f64) -> f64 {
    x.abs() - x.abs().trunc()
}

/// The library's test of x and of -x, held to the judge's; and to what is known of x, if it is.
fn tested(x: f64, known: Option<bool>) -> bool {
    for x in [x, -x] {
        let (ours, expected) = (unsafe { stage_doubtful(x) }, is_doubtful(x));
        if ours != expected as u32 || known.is_some_and(|k| k != expected) {
            println!("DIFFERENT number: {x:?}, the library {ours}, the judge {expected}, known {known:?}");
            std::process::exit(1)
        }
    }
    is_doubtful(x)
}

/// The test by itself, since no sweep gets to the f64 beside an end: a difference is an f32, so that one over a weight lies at an end or farther
/// from it than the next f64. Here are the ends, the f64 beside them and any others, of either sign; and where f64 has no parts.
fn numbers(r: &mut Rng, count: u64) {
    for whole in [0.0, 1.0, 2.0, 1000.0, 2f64.powi(30), 2f64.powi(48) - 1.0] {
        let (low, high) = (whole + 7.0 / 16.0, whole + 9.0 / 16.0);
        for x in [low, low.next_up(), whole + 0.5, high.next_down(), high] {
            tested(x, Some(true));
        }
        for x in [whole, low.next_down(), high.next_up()] {
            tested(x, Some(false));
        }
    }
    for x in [2f64.powi(52), 2f64.powi(52) + 1.0, 2f64.powi(60), f64::MAX, f64::MIN_POSITIVE, 5e-324, f64::NAN, f64::INFINITY] {
        tested(x, Some(false));
    }
    // Near ties above a whole number below 2^48, and up to two f64 beside; any f64 from 2^-8 to 2^54.
    let (mut doubtful, mut steps) = ([0; 2], [0; 5]);
    for _ in 0..count {
        let bits = r.below(49);
        let (whole, tie, step) = (r.below(1 << bits) as f64, r.one_of(&[7.0, 8.0, 9.0]) / 16.0, r.below(5));
        let x = f64::from_bits((whole + tie).to_bits() + step - 2);
        doubtful[0] += tested(x, None) as u64;
        steps[step as usize] += 1;
        let x = f64::from_bits(r.next() >> 12 | (1015 + r.below(62)) << 52);
        doubtful[1] += tested(x, Some((7.0 / 16.0..=9.0 / 16.0).contains(&part(x)))) as u64;
    }
    println!("numbers two f64 below 7/16, 1/2 or 9/16 to two above: {steps:?}, of either sign, doubtful {}; any: {count}, doubtful {}", doubtful[0], doubtful[1]);
}

/// Merges with a difference above 0 and below.
type Signs = [u64; 2];

/// What the compared sweeps had: of the merges how many were doubtful, and of these how many moved a node by 0; how many were at 7/16, 1/2 and
/// 9/16; and how many would be at 7/16 or 9/16 by the next f32 difference, being doubtful or not.
#[derive(Default)]
struct Tally {
    answers: [u64; 11],
    marked: u64,
    gates: u64,
    merges: Signs,
    doubtful: Signs,
    by_0: Signs,
    at: [Signs; 3],
    inside: Signs,
    outside: Signs,
    heavy: u64,
}

impl Tally {
    /// A merge's difference over its weight, and that weight.
    fn merge(&mut self, quotient: f64, weight: i32) {
        let sign = (quotient < 0.0) as usize;
        let over = |difference: f32| difference as f64 / weight as f64;
        let difference = (quotient * weight as f64) as f32;
        assert_eq!(over(difference), quotient);
        let (here, end) = (is_doubtful(quotient), |x: f64| part(x) == 7.0 / 16.0 || part(x) == 9.0 / 16.0);
        let beside = !end(quotient) && (end(over(difference.next_up())) || end(over(difference.next_down())));
        self.merges[sign] += 1;
        self.doubtful[sign] += here as u64;
        self.by_0[sign] += (here && quotient.round_ties_even() == 0.0) as u64;
        for (seen, x) in self.at.iter_mut().zip([7.0 / 16.0, 0.5, 9.0 / 16.0]) {
            seen[sign] += (part(quotient) == x) as u64;
        }
        self.inside[sign] += (beside && here) as u64;
        self.outside[sign] += (beside && !here) as u64;
        self.heavy += (here && weight > 1) as u64;
    }
}

pub fn run(count: u64) {
    let mut r = Rng(0x6C62_272E_07BB_0142);
    numbers(&mut r, count);
    let mut t = Tally::default();
    for seed in 1..=count {
        let s = doubtful(seed);
        let a = s.answer();
        let mut l = lent(&mut r, s.rays * s.gates);
        if let Err(e) = compare(&s, &mut l, a.number) {
            println!("DIFFERENT marks: {e}\n{}", s.line());
            std::process::exit(1)
        }
        t.answers[a.number as usize] += 1;
        t.marked += a.doubtful.contains(&1) as u64;
        t.gates += a.doubtful.iter().map(|&d| d as u64).sum::<u64>();
        if a.number == 0 {
            s.trace().quotients.into_iter().for_each(|(quotient, weight)| t.merge(quotient, weight));
        }
    }
    println!("sweeps at near ties: {count}, by answer {:?}; with marks {}, gates marked {}", t.answers, t.marked, t.gates);
    println!(
        "their merges, of a difference above 0 and below: {:?}, doubtful {:?}, moving by 0 {:?}; at 7/16, 1/2, 9/16 {:?}",
        t.merges, t.doubtful, t.by_0, t.at
    );
    println!("one f32 inside 7/16 or 9/16 {:?}, one outside {:?}; doubtful with a weight above 1 {}", t.inside, t.outside, t.heavy);
}
