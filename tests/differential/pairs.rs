//! Made pairs of channels: the second independent of the first or like it, limits at both sides of 10,000, faults in either channel, and channels that have
//! the same least and greatest valid velocity as another.
use crate::books::{far, far_apart};
use crate::records::gapped;
use crate::{Lent, GATES, RAYS};
use radish_oracle::make::{doubtful, sized, small, weather, Rng};
use radish_oracle::pair::Pair;
use radish_oracle::Sweep;

/// A sweep of the first's size and options, its velocities independent of the first's or made from them.
fn second(r: &mut Rng, seed: u64, first: &Sweep) -> Sweep {
    let (mut s, n, nyquist) = (first.clone(), first.velocities.len(), first.nyquist);
    match r.below(14) {
        0..=3 => {
            // Independent: brought to the same Nyquist, or as they are.
            let other = sized(seed + (1 << 43), s.rays, s.gates);
            let scale = if r.below(4) == 0 { 1.0 } else { nyquist / other.nyquist };
            s.velocities = other.velocities.iter().map(|v| v * scale).collect();
            s.mask = other.mask;
        }
        4 => {
            let most = r.one_of(&[1e-6, 0.05, 0.5]);
            s.velocities.iter_mut().for_each(|v| *v += ((r.unit() * 2.0 - 1.0) * most) as f32 * nyquist);
        }
        5 => (0..n.min(3)).for_each(|_| s.velocities[r.below(n as u64) as usize] = (r.unit() * 3.0 - 1.5) as f32 * nyquist),
        6 => s.mask.iter_mut().for_each(|m| *m = (r.below(3) > 0) as u8),
        7 => s.mask.fill(0),
        8 | 9 => {
            // Whole folds beyond the first, all gates or some.
            let (by, some) = (r.one_of(&[1.0f32, -1.0, 2.0, -2.0, 5.0, -40.0]) * 2.0 * nyquist, r.below(2));
            s.velocities.iter_mut().for_each(|v| *v += if r.below(1 + 3 * some) == 0 { by } else { 0.0 });
        }
        10 => {
            // Beyond Nyquist on one side, by less than an interval or by more.
            let (side, by) = (r.one_of(&[1.0f32, -1.0]), r.one_of(&[1.01f32, 1.5, 4.0]));
            s.velocities.iter_mut().for_each(|v| *v *= if *v * side > 0.0 { by } else { 1.0 });
        }
        11 if nyquist > 0.0 => s.velocities.iter_mut().for_each(|v| *v = v.clamp(-nyquist, nyquist)),
        12 => s.velocities.iter_mut().for_each(|v| *v = -*v),
        _ => s.velocities = far_apart(r, n, nyquist),
    }
    s.velocities.iter_mut().for_each(|v| *v = v.clamp(-16384.0, 16384.0));
    s
}

/// Both channels, either of which may be the one made from the other.
pub fn made(r: &mut Rng, seed: u64) -> Pair {
    let few = r.below(4) as usize;
    let first = match r.below(400) {
        // At the limits of question 1.
        0 => sized(seed, r.one_of(&RAYS), few),
        1 => sized(seed, few, r.one_of(&GATES)),
        2..=19 => far(r),
        20..=199 => small(seed, 10 + seed % 118),
        200..=299 => doubtful(seed),
        _ => gapped(r),
    };
    let mut channels = [second(r, seed, &first), first];
    if r.below(2) == 0 {
        channels.swap(0, 1);
    }
    if r.below(60) == 0 {
        channels.iter_mut().for_each(|s| s.mask.fill(0));
    }
    Pair { channels }
}

/// So many limits are asked for by both channels together: one lies so far above Nyquist, the other so far below, that by itself neither asks for many.
pub fn asking(r: &mut Rng, limits: u64) -> Pair {
    let splits = r.one_of(&[1u32, 2, 4]);
    let nyquist = r.one_of(&[0.125f32, 0.25, 0.5]);
    let interval = 2.0 * nyquist / splits as f32;
    let intervals = limits - splits as u64 - 1;
    let above = 10 + r.below(intervals - 20);
    let (rays, gates) = (1 + r.below(3) as usize, 1 + r.below(4) as usize);
    let (centred, wrap) = (r.below(2) as u32, r.below(2) as u32);
    let mut channel = |side: f32, added: u64| {
        let end = side * (nyquist + added as f32 * interval);
        let mut velocities: Vec<f32> = (0..rays * gates).map(|_| end - side * r.one_of(&[0.0f32, 0.25, 1.0, 2.0, 3.5]) * interval).collect();
        let mut mask: Vec<u8> = velocities.iter().map(|_| (r.below(4) > 0) as u8).collect();
        let at = r.below(mask.len() as u64) as usize;
        (velocities[at], mask[at]) = (end, 1);
        Sweep { rays, gates, nyquist, splits, skip_between_rays: 0, skip_along_ray: 0, centred, wrap, velocities, mask }
    };
    let mut channels = [channel(1.0, above), channel(-1.0, intervals - above)];
    if r.below(2) == 0 {
        channels.swap(0, 1);
    }
    Pair { channels }
}

/// Weather in both channels; with `beyond`, horizontal goes beyond Nyquist above and vertical below, so that neither has the limits of both by itself.
pub fn weathers(rays: usize, gates: usize, rough: f64, beyond: bool) -> Pair {
    let channel = |seed: u64, side: f32| {
        let mut s = weather(seed, rays, gates, rough);
        s.velocities.iter_mut().for_each(|v| *v *= if beyond && *v * side > 0.0 { 1.5 } else { 1.0 });
        s
    };
    Pair { channels: [channel(7, 1.0), channel(8, -1.0)] }
}

/// A channel with the same least and greatest valid velocity: the same gates in another order, or any velocities between the two and any mask.
pub fn replaced(r: &mut Rng, s: &Sweep) -> Sweep {
    let (mut other, n) = (s.clone(), s.mask.len());
    let mut order: Vec<usize> = (0..n).collect();
    (1..n).for_each(|i| order.swap(i, r.below(i as u64 + 1) as usize));
    let valid = || s.velocities.iter().zip(&s.mask).filter(|(_, m)| **m == 1).map(|(v, _)| *v);
    if r.below(2) == 0 || valid().count() < 2 {
        other.velocities = order.iter().map(|&g| s.velocities[g]).collect();
        other.mask = order.iter().map(|&g| s.mask[g]).collect();
        return other;
    }
    let (least, greatest) = (valid().fold(f32::MAX, f32::min), valid().fold(f32::MIN, f32::max));
    let between = |unit: f64| (least as f64 + unit * (greatest as f64 - least as f64)) as f32;
    other.velocities.iter_mut().for_each(|v| *v = between(r.unit()));
    other.mask.iter_mut().for_each(|m| *m = (r.below(4) > 0) as u8);
    for (&g, v) in order.iter().zip([least, greatest]) {
        (other.velocities[g], other.mask[g]) = (v, 1);
    }
    other
}

/// The twelve slices, by their place in the call.
pub const SLICES: [&str; 12] = [
    "h_velocity", "h_valid", "v_velocity", "v_valid", "h_folds", "h_doubtful", "h_pair", "v_folds", "v_doubtful", "v_pair", "work", "work_f64",
];

/// How often each slice was one element too short, and one too long; work memory may be longer than asked.
pub type Lengths = [[u64; 12]; 2];

/// One element longer than asked, or shorter where there is one: whether longer.
pub fn resize<T: Default + Clone>(slice: &mut Vec<T>, asked: usize, longer: bool) -> bool {
    let longer = longer || asked == 0;
    slice.resize(if longer { asked + 1 } else { asked - 1 }, T::default());
    longer
}

/// One slice one element too short or too long.
fn length_off(r: &mut Rng, p: &mut Pair, l: &mut [Lent; 2], seen: &mut Lengths) {
    let n = p.channels[0].rays * p.channels[0].gates;
    let (slice, longer) = (r.below(12) as usize, r.below(2) == 0);
    let channel = [0, 0, 1, 1, 0, 0, 0, 1, 1, 1, 0, 0][slice];
    let (s, l) = (&mut p.channels[channel], &mut l[channel]);
    let longer = match SLICES[slice] {
        "h_velocity" | "v_velocity" => resize(&mut s.velocities, n, longer),
        "h_valid" | "v_valid" => resize(&mut s.mask, n, longer),
        "h_folds" | "v_folds" => resize(&mut l.folds, n, longer),
        "h_doubtful" | "v_doubtful" => resize(&mut l.doubtful, n, longer),
        "h_pair" | "v_pair" => resize(&mut l.pair, 2, longer),
        "work" => resize(&mut l.words, 96 * n + 64, longer),
        _ => resize(&mut l.floats, 16 * n + 16, longer),
    };
    seen[longer as usize][slice] += 1;
}

/// One fault, or none if there is no gate for it: a length, a mask byte or a velocity in one channel, or what both share.
fn fault(r: &mut Rng, p: &mut Pair, l: &mut [Lent; 2], seen: &mut Lengths) {
    let kind = r.below(12);
    let s = &mut p.channels[r.below(2) as usize];
    let gate = |r: &mut Rng, valid: u8| {
        let gates: Vec<usize> = (0..s.mask.len().min(s.velocities.len())).filter(|&g| s.mask[g] == valid).collect();
        if gates.is_empty() { None } else { Some(r.one_of(&gates)) }
    };
    let wrong = [f32::NAN, f32::INFINITY, f32::NEG_INFINITY, -16384.002, 16384.002, 1e30];
    match kind {
        0 | 1 | 2 => length_off(r, p, l, seen),
        3 | 4 => {
            let was = r.below(2) as u8;
            if let Some(g) = gate(r, was) {
                s.mask[g] = r.one_of(&[2, 2, 3, 255]);
            }
        }
        5 | 6 => {
            if let Some(g) = gate(r, 1) {
                s.velocities[g] = r.one_of(&wrong);
            }
        }
        // At masked gates a velocity does not matter.
        7 | 8 => {
            for g in 0..s.mask.len().min(s.velocities.len()) {
                if s.mask[g] == 0 {
                    s.velocities[g] = r.one_of(&wrong);
                }
            }
        }
        9 => {
            let nyquist = r.one_of(&[0.0, -1.0, 0.12499999, 1024.0001, f32::NAN, f32::INFINITY]);
            p.channels.iter_mut().for_each(|s| s.nyquist = nyquist);
        }
        10 => {
            let option = r.below(5);
            p.channels.iter_mut().for_each(|s| match option {
                0 => s.splits = 0,
                1 => s.skip_between_rays = 1001,
                2 => s.skip_along_ray = u32::MAX,
                3 => s.centred = 2,
                _ => s.wrap = 2,
            });
        }
        _ => {
            // Above question 1's limits, or other than the slices are for.
            let (rays, gates) = r.one_of(&[(721, 0), (0, 1201), (1, 0), (0, 1)]);
            p.channels.iter_mut().for_each(|s| (s.rays, s.gates) = (s.rays + rays, s.gates + gates));
        }
    }
}

/// One to three faults, in horizontal, in vertical or in both.
pub fn spoil(r: &mut Rng, p: &mut Pair, l: &mut [Lent; 2], seen: &mut Lengths) {
    (0..1 + r.below(3)).for_each(|_| fault(r, p, l, seen));
}
