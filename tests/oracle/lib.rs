//! The radish dealias text, unchanged, behind an answer in the scope document's terms.
//! `build` copies the module's files in and appends `access.rs` to mod.rs and `access_network.rs` to network.rs, so that their private parts
//! can be called.

extern crate ndarray;

#[derive(Debug)]
pub enum RadishError {
    Dealias(String),
}
pub type Result<T> = std::result::Result<T, RadishError>;

#[path = "dealias/mod.rs"]
pub mod dealias;
pub mod book;
pub mod file;
pub mod make;
pub mod pair;

use dealias::access::{
    combine_regions, dealias_sweep, edge_sum_and_count, find_regions, find_sweep_interval_splits, gates_in, next_edge, regions_in,
    AggregatedEdge, EdgeTracker, RegionTracker,
};
use dealias::DealiasOptions;
use ndarray::Array2;
use std::collections::BTreeMap;

#[derive(Debug, Clone, PartialEq)]
pub struct Sweep {
    pub rays: usize,
    pub gates: usize,
    pub nyquist: f32,
    pub splits: u32,
    pub skip_between_rays: u32,
    pub skip_along_ray: u32,
    pub centred: u32,
    pub wrap: u32,
    pub velocities: Vec<f32>,
    pub mask: Vec<u8>,
}

/// What the scope document asks of a sweep call: the answer number and, where it is 0, counts, marks and the pair.
#[derive(Debug, Clone, PartialEq)]
pub struct Answer {
    pub number: u32,
    pub counts: Vec<i32>,
    pub doubtful: Vec<u8>,
    pub regions: u32,
    pub merges: u32,
    pub offset: i32,
}

/// How long the counts, the marks, the pair and the two work memories lent to a sweep call are.
#[derive(Debug, Clone, Copy, PartialEq)]
pub struct Lent {
    pub counts: usize,
    pub doubtful: usize,
    pub pair: usize,
    pub words: usize,
    pub floats: usize,
}

/// A recorded call: the memory lent, and what is added to each count before the second entry is called.
pub struct Call {
    pub lent: Lent,
    pub more: i32,
    pub sweep: Sweep,
}

/// An edge record: two labels, the number of pairs and two sums.
pub struct Record(pub i32, pub i32, pub i32, pub f64, pub f64);

fn shown(records: &[AggregatedEdge]) -> Vec<Record> {
    records.iter().map(|e| Record(e.index1, e.index2, e.count, e.vel1, e.vel2)).collect()
}

/// Whether a number d lies within one sixteenth of a whole number plus a half, the distance included: there is a whole k with
/// |16 d - (16 k + 8)| <= 1. Where d is m / 2^s this is put in whole numbers: |16 m - (16 k + 8) 2^s| <= 2^s.
pub fn is_doubtful(d: f64) -> bool {
    let bits = d.to_bits();
    let (exponent, fraction) = ((bits >> 52 & 0x7FF) as i32, (bits & ((1 << 52) - 1)) as i128);
    let s = 1075 - exponent;
    // At or below 0: a whole number, an infinity or no number. Above 60: less than 2^-7 from 0.
    if s <= 0 || s > 60 {
        return false;
    }
    let (m, one) = ((1 << 52 | fraction) * if d < 0.0 { -1 } else { 1 }, 1i128 << s);
    (16 * m - 7 * one).rem_euclid(16 * one) <= 2 * one
}

/// A merge as the Rust's trackers show it: its base and the node that it moves, the weight of its edge, what the moved node's counts gain, and
/// the gates of either node before it.
#[derive(Debug, Clone, Copy, PartialEq)]
pub struct Merge {
    pub base: usize,
    pub moved: usize,
    pub weight: i32,
    pub folds: i32,
    pub gates: i64,
    pub base_gates: i64,
}

/// The inner values, for looking into a difference. `quotients` has for each merge its edge's difference over its weight, and that weight.
pub struct Trace {
    pub limits: Vec<f64>,
    pub labels: Vec<i32>,
    pub regions: usize,
    pub records: Vec<Record>,
    pub uncentred: Vec<i32>,
    pub doubtful: Vec<u8>,
    pub quotients: Vec<(f64, i32)>,
    pub merged: Vec<Merge>,
    pub merges: u32,
    pub within: bool,
}

impl Sweep {
    pub fn options(&self) -> DealiasOptions {
        DealiasOptions {
            interval_splits: self.splits as usize,
            skip_between_rays: self.skip_between_rays as i32,
            skip_along_ray: self.skip_along_ray as i32,
            centered: self.centred == 1,
        }
    }
    pub fn velocity(&self) -> Array2<f32> {
        Array2::from_vec(self.rays, self.gates, self.velocities.clone())
    }
    pub fn valid(&self) -> Array2<bool> {
        Array2::from_vec(self.rays, self.gates, self.mask.iter().map(|&m| m == 1).collect())
    }
    fn valid_velocities(&self) -> Vec<f32> {
        self.velocities.iter().zip(&self.mask).filter(|(_, m)| **m == 1).map(|(v, _)| *v).collect()
    }
    /// The Rust's limits for valid velocities, by the sweep's Nyquist and splits; none where there would be more than 10,000.
    fn limits_for(&self, velocities: &[f32]) -> Option<Vec<f64>> {
        find_sweep_interval_splits(self.nyquist, self.splits as usize, velocities).ok()
    }
    pub fn own_limits(&self) -> Option<Vec<f64>> {
        self.limits_for(&self.valid_velocities())
    }

    // The questions that the entries share, each by its number in the scope document.
    fn yes_1(&self) -> bool {
        self.rays <= 720 && self.gates <= 1200
    }
    fn yes_2(&self, own: bool) -> bool {
        let n = self.rays * self.gates;
        self.velocities.len() == n && self.mask.len() == n && own
    }
    fn yes_3(&self) -> bool {
        self.mask.iter().all(|&m| m <= 1)
    }
    fn yes_5(&self) -> bool {
        self.nyquist >= 0.125 && self.nyquist <= 1024.0
    }
    fn yes_6(&self) -> bool {
        let skips = self.skip_between_rays <= 1000 && self.skip_along_ray <= 1000;
        self.splits >= 1 && self.splits <= 9999 && skips && self.centred <= 1 && self.wrap <= 1
    }
    fn yes_7(&self) -> bool {
        self.valid_velocities().iter().all(|v| *v >= -16384.0 && *v <= 16384.0)
    }

    /// Questions 1 to 7, the memory being as long as the sweep asks where none is given; 0 where all get a yes.
    pub fn refused_before_limits(&self, lent: Option<Lent>) -> u32 {
        let n = self.rays * self.gates;
        if !self.yes_1() {
            return 1;
        }
        if !self.yes_2(lent.map_or(true, |l| l.counts == n && l.doubtful == n && l.pair == 2)) {
            return 2;
        }
        if !self.yes_3() {
            return 3;
        }
        if !lent.map_or(true, |l| l.words >= 96 * n + 64 && l.floats >= 16 * n + 16) {
            return 4;
        }
        if !self.yes_5() {
            return 5;
        }
        if !self.yes_6() {
            return 6;
        }
        if !self.yes_7() {
            return 7;
        }
        0
    }
    /// The same, and question 8.
    pub fn refused(&self, lent: Option<Lent>) -> u32 {
        match self.refused_before_limits(lent) {
            0 if self.own_limits().is_none() => 8,
            number => number,
        }
    }
    pub fn refused_before_merging(&self) -> u32 {
        self.refused(None)
    }

    /// The Rust's own labels by the sweep's own limits, and the number of regions; for a sweep that passes questions 1 to 8.
    pub fn region_map(&self) -> (Vec<u32>, u32) {
        let (labels, regions) = find_regions(&self.velocity(), &self.valid(), &self.own_limits().unwrap());
        (labels.iter().map(|&l| l as u32).collect(), regions as u32)
    }

    /// The Rust's own edge records of the sweep with these labels.
    pub fn records(&self, labels: &[u32]) -> Vec<Record> {
        let (o, labels) = (self.options(), labels.iter().map(|&l| l as i32).collect());
        let labels = Array2::from_vec(self.rays, self.gates, labels);
        shown(&edge_sum_and_count(&labels, &self.velocity(), self.wrap == 1, o.skip_between_rays, o.skip_along_ray))
    }

    /// Those that become edges, each with its bridged pairs: its count less that of the same labels with both skips 0.
    pub fn edges(&self, labels: &[u32]) -> Vec<(Record, i32)> {
        let close = Sweep { skip_between_rays: 0, skip_along_ray: 0, ..self.clone() };
        let near: BTreeMap<(i32, i32), i32> = close.records(labels).iter().map(|x| ((x.0, x.1), x.2)).collect();
        let with_bridged = |r: Record| {
            let bridged = r.2 - near.get(&(r.0, r.1)).unwrap_or(&0);
            (r, bridged)
        };
        self.records(labels).into_iter().filter(|r| r.0 > r.1).map(with_bridged).collect()
    }

    /// The second entry, which is lent so many velocities to write: questions 1, 2, 3, 5, 7 and 10, and where all get a yes velocity + count * 2 * Nyquist
    /// in f64 at a gate that shows a wind, 0 at any other. A gate shows one that is valid and has a label; of its count alone question 10 asks.
    pub fn unfold(&self, counts: &[i32], labels: &[u32], lent: usize) -> (u32, Vec<f64>) {
        let n = self.rays * self.gates;
        let fits = self.yes_2([counts.len(), labels.len(), lent] == [n; 3]);
        let shows = |g: usize| self.mask[g] == 1 && labels[g] != 0;
        let in_range = || (0..n).all(|g| !shows(g) || (-2000..=2000).contains(&counts[g]));
        let questions =
            [(1, self.yes_1()), (2, fits), (3, self.yes_3()), (5, self.yes_5()), (7, self.yes_7()), (10, fits && in_range())];
        if let Some((number, _)) = questions.iter().find(|(_, yes)| !yes) {
            return (*number, Vec::new());
        }
        let wind = |g: usize| self.velocities[g] as f64 + counts[g] as f64 * (2.0 * self.nyquist as f64);
        (0, (0..n).map(|g| if shows(g) { wind(g) } else { 0.0 }).collect())
    }

    /// The merges one by one, with question 9 put to each. Stops at the first merge that fails it. The difference of a merge, after the division,
    /// and the regions that it moves are the Rust's own, and so is what `merged` has of it: its trackers are looked at before and after each merge.
    pub fn trace_by(&self, limits: Vec<f64>) -> Trace {
        let (velocity, valid) = (self.velocity(), self.valid());
        let (labels, regions) = find_regions(&velocity, &valid, &limits);
        let mut sizes = vec![0i64; regions + 1];
        for &l in labels.iter() {
            if l != 0 {
                sizes[l as usize] += 1;
            }
        }
        let mut out = Trace {
            limits,
            labels: labels.iter().copied().collect(),
            regions,
            records: Vec::new(),
            uncentred: vec![0; labels.iter().len()],
            doubtful: vec![0; labels.iter().len()],
            quotients: Vec::new(),
            merged: Vec::new(),
            merges: 0,
            within: true,
        };
        if regions < 2 {
            return out;
        }
        let o = self.options();
        let records = edge_sum_and_count(&labels, &velocity, self.wrap == 1, o.skip_between_rays, o.skip_along_ray);
        out.records = shown(&records);
        if records.is_empty() {
            return out;
        }
        let mut rt = RegionTracker::new(&sizes[1..]);
        let mut et = EdgeTracker::new(&records, self.nyquist as f64 * 2.0, regions + 1);
        let mut marked = vec![0; regions + 1];
        while let Some((nodes, weight, quotient)) = next_edge(&et) {
            let before = rt.unwrap_number.clone();
            let (members, gates) = (nodes.map(|node| regions_in(&rt, node).to_vec()), nodes.map(|node| gates_in(&rt, node)));
            assert!(!combine_regions(&mut rt, &mut et), "an edge is live, but there is no merge");
            out.merges += 1;
            out.quotients.push((quotient, weight));
            // The node that a merge leaves without regions is the moved one.
            let moved = nodes.iter().position(|&node| regions_in(&rt, node).is_empty()).expect("a moved node");
            if is_doubtful(quotient) {
                members[moved].iter().for_each(|&region| marked[region] = 1);
            }
            // Every region of the moved node gains the same.
            let gain = |region: usize| rt.unwrap_number[region].wrapping_sub(before[region]);
            let folds = gain(members[moved][0]);
            assert!(members[moved].iter().all(|&region| gain(region) == folds), "regions of the moved node gain different numbers");
            let (base, gates, base_gates) = (nodes[1 - moved], gates[moved], gates[1 - moved]);
            out.merged.push(Merge { base, moved: nodes[moved], weight, folds, gates, base_gates });
            // A region whose count changed was moved, by the rounded difference or its negation.
            for (a, b) in before.iter().zip(&rt.unwrap_number) {
                if a != b && ((*b as i64 - *a as i64).abs() > 1000 || (*b as i64).abs() > 1000) {
                    out.within = false;
                    return out;
                }
            }
        }
        for (g, &l) in labels.iter().enumerate().filter(|(_, l)| **l != 0) {
            out.uncentred[g] = rt.unwrap_number[l as usize];
            out.doubtful[g] = marked[l as usize];
        }
        out
    }
    /// By the sweep's own limits; for a sweep that passes questions 1 to 8.
    pub fn trace(&self) -> Trace {
        self.trace_by(self.own_limits().unwrap())
    }

    /// What is taken off each count: 0, or with centring the mean count of the gates that have a label, rounded as `dealias_sweep` rounds it.
    fn offset(&self, t: &Trace) -> i32 {
        let labelled = || t.labels.iter().zip(&t.uncentred).filter(|(l, _)| **l != 0);
        let (gates, folds) = (labelled().count(), labelled().map(|(_, &c)| c as i64).sum::<i64>());
        if self.centred != 1 || gates == 0 {
            return 0;
        }
        (folds as f64 / gates as f64).round_ties_even() as i32
    }

    /// The answer by these limits, with question 9 alone put. The counts are centred here, as `dealias_sweep` does it: it takes no limits.
    pub fn answer_by(&self, limits: Vec<f64>) -> Answer {
        let t = self.trace_by(limits);
        if !t.within {
            return Answer::refused(9);
        }
        let offset = self.offset(&t);
        // A valid gate without a label is centred too; a masked one is not.
        let counts = t.uncentred.iter().zip(&self.mask).map(|(c, &m)| if m == 1 { c - offset } else { 0 }).collect();
        Answer { number: 0, counts, doubtful: t.doubtful, regions: t.regions as u32, merges: t.merges, offset }
    }

    pub fn answer(&self) -> Answer {
        self.answer_lent(None)
    }
    /// By the sweep's own limits, where the counts centred here must be those that `dealias_sweep` gives.
    pub fn answer_lent(&self, lent: Option<Lent>) -> Answer {
        let number = self.refused(lent);
        if number != 0 {
            return Answer::refused(number);
        }
        let a = self.answer_by(self.own_limits().unwrap());
        if a.number == 0 {
            assert!(a.counts == self.counts(), "counts centred by the oracle are not those of dealias_sweep\n{}", self.line());
        }
        a
    }

    /// `dealias_sweep` itself, with no question put first; none where it gives an error (more than 10,000 limits).
    pub fn counts_or_none(&self) -> Option<Vec<i32>> {
        let counts = dealias_sweep(&self.velocity(), &self.valid(), self.nyquist, self.wrap == 1, &self.options());
        counts.ok().map(|c| c.iter().copied().collect())
    }
    pub fn counts(&self) -> Vec<i32> {
        self.counts_or_none().expect("at most 10,000 limits")
    }

    /// One line for the marks: the number; where it is 0 also the mark of each gate.
    pub fn marks_line(&self) -> String {
        let a = self.answer();
        std::iter::once(a.number).chain(a.doubtful.iter().map(|&d| d as u32)).map(|x| x.to_string()).collect::<Vec<_>>().join(" ")
    }

    /// One line for the region map: the number; where it is 0 also the regions and the labels. It is lent no marks.
    pub fn map_line(&self, lent: Option<Lent>) -> String {
        let number = self.refused(lent.map(|l| Lent { doubtful: l.counts, ..l }));
        if number != 0 {
            return number.to_string();
        }
        let (labels, regions) = self.region_map();
        [0, regions].into_iter().chain(labels).map(|x| x.to_string()).collect::<Vec<_>>().join(" ")
    }

    /// The records that become edges, their first label being the greater, where questions 1 to 8 get a yes: labels, count and bridged pairs.
    pub fn records_line(&self) -> String {
        if self.refused_before_merging() != 0 {
            return String::new();
        }
        let edges = self.edges(&self.region_map().0);
        edges.iter().map(|(r, bridged)| format!("{} {} {} {bridged}", r.0, r.1, r.2)).collect::<Vec<_>>().join(" ")
    }

    /// One line: rays gates nyquist-bits splits skip-between-rays skip-along-ray centring wrap, then mask:velocity-bits for each gate.
    pub fn line(&self) -> String {
        let mut s = format!(
            "{} {} {:08x} {} {} {} {} {}",
            self.rays,
            self.gates,
            self.nyquist.to_bits(),
            self.splits,
            self.skip_between_rays,
            self.skip_along_ray,
            self.centred,
            self.wrap
        );
        for (v, m) in self.velocities.iter().zip(&self.mask) {
            s.push_str(&format!(" {}:{:08x}", m, v.to_bits()));
        }
        s
    }
    pub fn parse(line: &str) -> Option<Sweep> {
        let mut w = line.split_whitespace();
        let rays = w.next()?.parse().ok()?;
        let gates = w.next()?.parse().ok()?;
        let nyquist = f32::from_bits(u32::from_str_radix(w.next()?, 16).ok()?);
        let mut number = || w.next()?.parse::<u32>().ok();
        let (splits, skip_between_rays, skip_along_ray, centred, wrap) =
            (number()?, number()?, number()?, number()?, number()?);
        let (mut velocities, mut mask) = (Vec::new(), Vec::new());
        for g in w {
            let (m, v) = g.split_once(':')?;
            mask.push(m.parse().ok()?);
            velocities.push(f32::from_bits(u32::from_str_radix(v, 16).ok()?));
        }
        Some(Sweep { rays, gates, nyquist, splits, skip_between_rays, skip_along_ray, centred, wrap, velocities, mask })
    }
}

impl Answer {
    fn refused(number: u32) -> Answer {
        Answer { number, counts: Vec::new(), doubtful: Vec::new(), regions: 0, merges: 0, offset: 0 }
    }

    /// One line: the number; where it is 0 also regions, merges, offset and the counts.
    pub fn line(&self) -> String {
        let mut s = format!("{}", self.number);
        if self.number == 0 {
            s.push_str(&format!(" {} {} {}", self.regions, self.merges, self.offset));
            for c in &self.counts {
                s.push_str(&format!(" {c}"));
            }
        }
        s
    }
}

impl Call {
    /// One line: the lengths of counts, marks, pair, words and floats, the number added, then a sweep's line.
    pub fn parse(line: &str) -> Option<Call> {
        let mut w = line.splitn(7, ' ');
        let mut number = || w.next()?.parse::<usize>().ok();
        let lent = Lent { counts: number()?, doubtful: number()?, pair: number()?, words: number()?, floats: number()? };
        let more = w.next()?.parse().ok()?;
        Some(Call { lent, more, sweep: Sweep::parse(w.next()?)? })
    }

    /// The line of the sweep entry: the number, where it is 0 regions, merges, counts and, if there are gates, their marks in one word; and
    /// whether the work memory asked for is cleared. The line of the region map, which is lent labels as the sweep entry counts: likewise, with
    /// regions and labels. Where the first number is 0, the line of the second entry with these labels: the number, and where that is 0 the bits of
    /// each unfolded velocity.
    pub fn lines(&self) -> Vec<String> {
        let a = self.sweep.answer_lent(Some(self.lent));
        let left = |cleared: bool| if cleared { "cleared" } else { "kept" };
        let mut first = vec![a.number.to_string()];
        if a.number == 0 {
            first.extend([a.regions.to_string(), a.merges.to_string()]);
            first.extend(a.counts.iter().map(|c| c.to_string()));
        }
        if !a.doubtful.is_empty() {
            first.push(a.doubtful.iter().map(|d| d.to_string()).collect());
        }
        first.push(left(a.number == 0 || a.number == 9).into());
        let map = self.sweep.map_line(Some(self.lent));
        let mapped = format!("map {map} {}", left(map.starts_with('0')));
        if a.number != 0 {
            return vec![first.join(" "), mapped];
        }
        let counts: Vec<i32> = a.counts.iter().map(|c| c + self.more).collect();
        let (number, unfolded) = self.sweep.unfold(&counts, &self.sweep.region_map().0, counts.len());
        let mut second = vec![number.to_string()];
        second.extend(unfolded.iter().map(|x| format!("{:016x}", x.to_bits())));
        vec![first.join(" "), mapped, second.join(" ")]
    }
}
