//! Edge records: those that the proved stages write, beside the Rust's own on the same labels. Compared are labels, counts, differences bit
//! for bit, and the numbers of bridged pairs: a record's count less the Rust's count of the same labels with both skips 0.
//! A program is caught here that takes a look over valid gates of label 0 for a near one, or marks a record by its last pair alone.
use radish_oracle::make::{small, Rng};
use radish_oracle::{Record, Sweep};

#[path = "../../bench/stages.rs"]
#[allow(dead_code)]
pub mod stages;
use stages::{stage_count, stage_edges, stage_labels, stage_limits, stage_looks, stage_sort};

/// A record that becomes an edge, its first label being the greater: labels, count, how many of its pairs are bridged, bits of its difference.
#[derive(Debug, PartialEq)]
struct Edge {
    first: u32,
    second: u32,
    count: u32,
    bridged: u32,
    difference: u64,
}

/// What the stages are lent. No sweep clears it, so each meets what those before left.
struct Lent {
    limits: Vec<f64>,
    words: Vec<u32>,
    floats: Vec<f64>,
}

impl Lent {
    /// The labels, the number of regions and the edges of a sweep that passes questions 1 to 8, by the proved stages.
    fn edges(&mut self, s: &Sweep) -> (Vec<u32>, u32, Vec<Edge>) {
        let n = s.rays * s.gates;
        let (words, floats, t) = (96 * n + 64, 16 * n + 16, 13 * n);
        self.words.resize(words.max(self.words.len()), 7);
        self.floats.resize(floats.max(self.floats.len()), 7.0);
        let (vel, mask) = (s.velocities.as_ptr(), s.mask.as_ptr());
        let (l, w, d) = (self.limits.as_mut_ptr(), self.words.as_mut_ptr(), self.floats.as_mut_ptr());
        let (between, along) = (s.skip_between_rays as usize, s.skip_along_ray as usize);
        let (regions, e) = unsafe {
            let limits = stage_limits(s.nyquist, s.splits, vel, n, mask, n, l, self.limits.len());
            let regions = stage_labels(s.gates as u32, vel, n, mask, n, l, limits, w, 3 * n + 64);
            let m = stage_looks(s.rays, s.gates, between, along, s.wrap, w, words, n);
            stage_sort(w, words, n, m, regions as usize + 1);
            let c = stage_count(w, words, n, m);
            (regions, stage_edges(w, words, d, floats, vel, n, n, m, t, c, 2.0 * s.nyquist as f64))
        };
        // The tables of e edges: weights, the tree of 2e words, first labels, second labels, bridged pairs.
        let table = |k: usize| &self.words[t + k * e..t + (k + 1) * e];
        let (count, first, second, bridged) = (table(0), table(3), table(4), table(5));
        let edge = |i: usize| {
            Edge { first: first[i], second: second[i], count: count[i], bridged: bridged[i], difference: self.floats[i].to_bits() }
        };
        (self.words[..n].to_vec(), regions, (0..e).map(edge).collect())
    }
}

/// The edges by the Rust's edge finder on these labels.
fn edges_of_rust(s: &Sweep, labels: &[u32]) -> Vec<Edge> {
    let difference = |sum1: f64, sum2: f64| ((sum1 - sum2) / (2.0 * s.nyquist as f64)) as f32 as f64;
    let edge = |(r, bridged): (Record, i32)| Edge {
        first: r.0 as u32,
        second: r.1 as u32,
        count: r.2 as u32,
        bridged: bridged as u32,
        difference: difference(r.3, r.4).to_bits(),
    };
    s.edges(labels).into_iter().map(edge).collect()
}

/// How many pairs of a sweep's edges the Rust finds where no look passes a valid gate of label 0: each of these has a label above all regions'.
fn pairs_between_walls(s: &Sweep, labels: &[u32], regions: u32) -> u64 {
    let wall = regions + 1;
    let walled: Vec<u32> = labels.iter().zip(&s.mask).map(|(&l, &m)| if l == 0 && m == 1 { wall } else { l }).collect();
    s.records(&walled).iter().filter(|x| x.0 > x.1 && x.0 != wall as i32).map(|x| x.2 as u64).sum()
}

/// What the compared sweeps had.
#[derive(Default)]
struct Tally {
    sweeps: u64,
    wrapped: u64,
    edges: u64,
    bridged_edges: u64,
    mixed_edges: u64,
    pairs: u64,
    bridged: u64,
    over_label_0: u64,
}

impl Tally {
    fn compare(&mut self, l: &mut Lent, s: &Sweep) -> Result<(), String> {
        let (labels, regions, ours) = l.edges(s);
        let map = s.region_map();
        if labels != map.0 || regions != map.1 {
            return Err("labels or number of regions".into());
        }
        let expected = edges_of_rust(s, &labels);
        if ours.len() != expected.len() {
            return Err(format!("{} edges, expected {}", ours.len(), expected.len()));
        }
        if let Some((x, y)) = ours.iter().zip(&expected).find(|(x, y)| x != y) {
            return Err(format!("{x:x?}, expected {y:x?}"));
        }
        let pairs = ours.iter().map(|x| x.count as u64).sum::<u64>();
        self.sweeps += 1;
        self.wrapped += s.wrap as u64;
        self.edges += ours.len() as u64;
        self.bridged_edges += ours.iter().filter(|x| x.bridged > 0).count() as u64;
        self.mixed_edges += ours.iter().filter(|x| x.bridged > 0 && x.bridged < x.count).count() as u64;
        self.pairs += pairs;
        self.bridged += ours.iter().map(|x| x.bridged as u64).sum::<u64>();
        self.over_label_0 += pairs - pairs_between_walls(s, &labels, regions);
        Ok(())
    }
}

/// Patches of a few velocities, with masked gates and valid gates of label 0 strewn in. These lie at Nyquist, where the last interval ends, or
/// above it, where there is none: a velocity above Nyquist adds intervals below.
pub fn gapped(r: &mut Rng) -> Sweep {
    let (rays, gates) = (1 + r.below(12) as usize, 1 + r.below(12) as usize);
    let (wide, long) = (1 + r.below(4) as usize, 1 + r.below(6) as usize);
    let nyquist = r.one_of(&[10.0f32, 1.0, 0.125, 27.3]);
    let levels: Vec<f32> = (0..2 + r.below(3)).map(|_| (r.unit() * 1.8 - 0.9) as f32 * nyquist).collect();
    let patches: Vec<f32> = (0..144).map(|_| r.one_of(&levels)).collect();
    let beyond = r.one_of(&[1.0f32, 1.0, 1.0, 1.5]) * nyquist;
    let (masked, unlabelled) = (r.below(4), r.below(4));
    let (mut velocities, mut mask) = (Vec::new(), Vec::new());
    for g in 0..rays * gates {
        let part = r.below(10);
        let patch = patches[g / gates / wide * 12 + g % gates / long];
        mask.push((part >= masked) as u8);
        velocities.push(if part >= masked && part < masked + unlabelled { beyond } else { patch });
    }
    let skips = [0, 1, 2, 3, 100];
    let (skip_between_rays, skip_along_ray) = (r.one_of(&skips), r.one_of(&skips));
    let (splits, centred, wrap) = (1 + r.below(5) as u32, r.below(2) as u32, r.below(2) as u32);
    Sweep { rays, gates, nyquist, splits, skip_between_rays, skip_along_ray, centred, wrap, velocities, mask }
}

/// `count` sweeps, half of them made with gaps; of the others those that questions 1 to 8 refuse are left out.
pub fn run(count: u64) {
    let mut r = Rng(0x2F63_1A8E_9D5B_C047);
    let mut l = Lent { limits: vec![7.0; 10_000], words: Vec::new(), floats: Vec::new() };
    let mut t = Tally::default();
    for seed in 1..=count {
        let s = if seed % 2 == 0 { gapped(&mut r) } else { small(seed, 10 + seed % 118) };
        if s.refused_before_merging() != 0 {
            continue;
        }
        if let Err(e) = t.compare(&mut l, &s) {
            println!("DIFFERENT edge records: {e}\n{}", s.line());
            std::process::exit(1)
        }
    }
    println!(
        "edge records: {}, equal, of {} sweeps, {} with wrap; with bridged pairs {}, of them with other pairs too {}; pairs {}, bridged {}, over a valid gate of label 0 {}",
        t.edges, t.sweeps, t.wrapped, t.bridged_edges, t.mixed_edges, t.pairs, t.bridged, t.over_label_0
    );
}
