//! Test sweeps from a seed number, put to the sweep entry, the region map and the second entry and held to the Rust: small ones with options of all
//! sorts, and larger ones from seed 1. The library fills them (tests/seeds holds that to a loop in C), and must refuse none of them for its mask, its
//! Nyquist or a velocity.
use crate::filled::{crc32, filled};
use crate::{compare_all, compare_both, lent};
use radish_oracle::make::Rng;
use radish_oracle::Sweep;

/// Rays and gates of the larger ones.
const LARGE: [(usize, usize); 3] = [(90, 250), (180, 500), (360, 500)];

/// At most 130 gates, in some sweeps none.
fn size(r: &mut Rng) -> (usize, usize) {
    match r.below(8) {
        0 => (1, 1 + r.below(130) as usize),
        1 => (1 + r.below(130) as usize, 1),
        2 => r.one_of(&[(0, 0), (0, 9), (9, 0)]),
        _ => (1 + r.below(10) as usize, 1 + r.below(13) as usize),
    }
}

/// A small test sweep; one in twelve has an option out of its range.
fn small(r: &mut Rng) -> Sweep {
    let (rays, gates) = size(r);
    let mut s = filled(r.next() as u32, rays, gates);
    s.splits = match r.below(6) {
        0 | 1 | 2 => 3,
        3 => r.one_of(&[1, 9999]),
        4 => 1 + r.below(9) as u32,
        _ => 1 + r.below(200) as u32,
    };
    s.skip_between_rays = r.one_of(&[0, 0, 1, 2, 3, 100, 1000]);
    s.skip_along_ray = r.one_of(&[0, 0, 1, 2, 3, 100, 1000]);
    (s.centred, s.wrap) = (r.below(2) as u32, r.below(2) as u32);
    match r.below(60) {
        0 => s.splits = r.one_of(&[0, 10_000, u32::MAX]),
        1 => s.skip_between_rays = 1001,
        2 => s.skip_along_ray = u32::MAX,
        3 => s.centred = 2,
        4 => s.wrap = 7,
        _ => {}
    }
    s
}

fn fail(line: String, e: String) -> ! {
    println!("DIFFERENT test sweep: {e}\n{line}");
    std::process::exit(1)
}

/// `count` small test sweeps, and the larger ones.
pub fn run(count: u64) {
    let mut r = Rng(0x1B87_3593_A54F_F53A);
    let (mut seen, mut mapped, mut gates, mut masked) = ([0u64; 11], [0u64; 11], 0, 0);
    for _ in 0..count {
        let s = small(&mut r);
        let (number, map) = compare_all(&mut r, &s).unwrap_or_else(|e| fail(s.line(), e));
        assert!(![3, 5, 7].contains(&number), "answer {number} to a test sweep");
        seen[number as usize] += 1;
        mapped[map as usize] += 1;
        gates += s.mask.len();
        masked += s.mask.iter().filter(|m| **m == 0).count();
    }
    println!("small test sweeps: {count}, of {gates} gates, {masked} of them masked, by answer {seen:?}, their maps {mapped:?}");
    for (rays, gates) in LARGE {
        let (s, mut l) = (filled(1, rays, gates), lent(&mut r, rays * gates));
        compare_both(&s, &mut l, 0).unwrap_or_else(|e| fail(format!("seed 1, {rays} x {gates}"), e));
        let ([regions, merges], crc) = ([l.pair[0], l.pair[1]], crc32(&l.folds));
        println!("test sweep of seed 1, {rays} x {gates}: {regions} regions, {merges} merges, crc32 of the fold counts {crc:08x}, equal");
    }
}
