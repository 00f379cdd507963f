//! The merge book: small sweeps with books of several lengths, and large ones, held to the Rust's trackers at each merge (tests/oracle), to the sweep
//! entry on the same memory, and to the region map by doing the entries over it. A program is caught here that gives folds moved without their sign,
//! a weight from before edges combined, another node's number or gates, writes past the last merge or at a refusal, or asks 13 out of its turn.
use crate::jivakkol::{jivakkol_dealias_sweep, jivakkol_dealias_sweep_book};
use crate::records::gapped;
use crate::{bits, compare, compare_map, layers, lent, off, on_sweep, work_left, Lent, LAYERS, WEATHER};
use radish_oracle::book::Entry;
use radish_oracle::make::{doubtful, small, weather, Rng};
use radish_oracle::Sweep;

/// The judge's view of a sweep that is lent as much as it asks for: the sweep entry's answer; where questions 1 to 8 get a yes its regions, how many
/// entries 13 asks for, and its merges, up to one that question 9 refuses; and where the answer is 0 the book and the counts before centring.
#[derive(Default)]
struct Judged {
    number: u32,
    regions: usize,
    asked: usize,
    merges: u32,
    book: Vec<Entry>,
    uncentred: Vec<i32>,
}

fn judged(s: &Sweep) -> Judged {
    let number = s.refused_before_merging();
    if number != 0 {
        return Judged { number, ..Judged::default() };
    }
    let t = s.trace();
    let j = Judged { number: 9, regions: t.regions, asked: t.regions.saturating_sub(1), merges: t.merges, ..Judged::default() };
    if !t.within {
        return j;
    }
    Judged { number: 0, book: s.book(&t), uncentred: t.uncentred, ..j }
}

/// One call with a book of so many numbers, whatever they are: answer, book, and all that is lent. `before` is lent, and `plain` is what the sweep
/// entry left of the same.
fn call(r: &mut Rng, s: &Sweep, j: &Judged, before: &Lent, plain: &Lent, length: usize) -> Result<(u32, Vec<i32>), String> {
    let mut l = before.clone();
    l.book = (0..length).map(|_| r.next() as i32).collect();
    let mut book = l.book.clone();
    let number = on_sweep!(jivakkol_dealias_sweep_book, s, l, folds, doubtful, pair, book);
    let expected = if (j.number == 0 || j.number == 9) && length / 6 < j.asked { 13 } else { j.number };
    if number != expected {
        return Err(format!("answer {number}, expected {expected}"));
    }
    if number == 0 {
        book.chunks_mut(6).zip(&j.book).for_each(|(place, e)| place.copy_from_slice(&e.numbers));
    }
    if let Some(i) = (0..length).find(|&i| l.book[i] != book[i]) {
        let kind = if number == 0 && i / 6 < j.book.len() { "" } else { ", not to be written" };
        return Err(format!("answer {number}, number {} of entry {}{kind}: {}, expected {}", i % 6 + 1, i / 6 + 1, l.book[i], book[i]));
    }
    // After 13 work memory is as after 9; else all is as the sweep entry leaves it.
    let left = if number == 13 { before } else { plain };
    if l.folds != left.folds || l.doubtful != left.doubtful || l.pair != left.pair {
        return Err(format!("answer {number}, counts, marks or pair"));
    }
    if number == 13 {
        work_left(s.rays * s.gates, true, before, &l).map_err(|e| format!("answer 13, {e}"))?;
    } else if l.words != left.words || bits(&l.floats) != bits(&left.floats) {
        return Err(format!("answer {number}, work memory"));
    }
    Ok((number, l.book))
}

/// A book done over the region map, all counts being 0 before: the count of each gate. Both nodes of an entry must be there, and the moved one have
/// the gates said and no more than the base.
fn replayed(labels: &[u32], regions: usize, book: &[i32]) -> Result<Vec<i32>, String> {
    let (mut gates, mut counts) = (vec![0; regions + 1], vec![0; regions + 1]);
    labels.iter().for_each(|&label| gates[label as usize] += 1);
    let mut regions_in: Vec<Vec<usize>> = (0..=regions).map(|region| vec![region]).collect();
    for (i, e) in book.chunks(6).enumerate() {
        let (base, moved) = (e[0] as usize, e[1] as usize);
        let there = |node: usize| (1..=regions).contains(&node) && !regions_in[node].is_empty();
        if !there(base) || !there(moved) || base == moved || gates[moved] != e[5] || gates[base] < gates[moved] {
            return Err(format!("entry {} cannot be done over the region map: {e:?}", i + 1));
        }
        let from = std::mem::take(&mut regions_in[moved]);
        from.iter().for_each(|&region| counts[region] += e[4]);
        regions_in[base].extend(from);
        gates[base] += gates[moved];
    }
    Ok(labels.iter().map(|&label| counts[label as usize]).collect())
}

/// Lengths of books: none, as long as asked, with a rest below an entry, with entries to spare; and, where entries are asked, one entry or one number
/// too short.
fn lengths(r: &mut Rng, asked: usize) -> Vec<usize> {
    let exact = 6 * asked;
    let mut all = vec![0, exact, exact + 1 + r.below(5) as usize, exact + 6 + r.below(30) as usize];
    if asked > 0 {
        all.extend([exact - 6, exact - 1]);
    }
    all
}

/// What was compared: books, by their answer; 13s where the sweep entry answers 9, and where it merges nothing; sweeps that question 9 refuses at their
/// first merge, and later; sweeps accepted, with centring and with wrap; those that merge nothing, by regions: none, one, more; and those with fewer
/// merges than 13 asks entries for, but some.
#[derive(Default)]
struct Tally {
    books: u64,
    answers: [u64; 14],
    short_of_9: u64,
    short_of_none: u64,
    refused_9: [u64; 2],
    accepted: u64,
    centred: u64,
    wrapped: u64,
    ended: [u64; 3],
    in_parts: u64,
    entries: Entries,
}

/// What the entries of the accepted sweeps had: folds moved below 0, 0 and above; bridged pairs, and other pairs too; edges that took up others, and
/// of these how many had bridged pairs; nodes of equal gates; and a moved node that had taken up others.
#[derive(Default)]
struct Entries {
    all: u64,
    folds: [u64; 3],
    bridged: u64,
    mixed: u64,
    combined: u64,
    combined_bridged: u64,
    equal: u64,
    grown: u64,
}

impl Entries {
    fn add(&mut self, book: &[Entry]) {
        let mut bases = std::collections::BTreeSet::new();
        for e in book {
            let [base, moved, weight, bridged, folds, gates] = e.numbers;
            self.all += 1;
            self.folds[(folds.signum() + 1) as usize] += 1;
            self.bridged += (bridged > 0) as u64;
            self.mixed += (bridged > 0 && bridged < weight) as u64;
            self.combined += (e.records > 1) as u64;
            self.combined_bridged += (e.records > 1 && bridged > 0) as u64;
            self.equal += (gates as i64 == e.base_gates) as u64;
            self.grown += bases.contains(&moved) as u64;
            bases.insert(base);
        }
    }

    fn line(&self) -> String {
        format!(
            "{} entries; folds moved below 0, 0, above {:?}; with bridged pairs {}, of them with other pairs too {}; of edges that took up others {}, of them with \
             bridged pairs {}; nodes of equal gates {}; moved nodes that had taken up others {}",
            self.all, self.folds, self.bridged, self.mixed, self.combined, self.combined_bridged, self.equal, self.grown
        )
    }
}

impl Tally {
    /// A small sweep; the sweep entry is held to the Rust first.
    fn compare_small(&mut self, r: &mut Rng, s: &Sweep, j: &Judged, before: &Lent, lengths: &[usize]) -> Result<(), String> {
        let mut plain = before.clone();
        compare(s, &mut plain, j.number)?;
        self.compare(r, s, j, before, &mut plain, lengths)
    }

    /// A sweep with books of these lengths, of which the first that is accepted is done over the region map. `before` is lent, and `plain` is what the
    /// sweep entry left of the same.
    fn compare(&mut self, r: &mut Rng, s: &Sweep, j: &Judged, before: &Lent, plain: &mut Lent, lengths: &[usize]) -> Result<(), String> {
        let mut done = j.number != 0;
        for &length in lengths {
            let (number, book) = call(r, s, j, before, plain, length).map_err(|e| format!("book of {length}: {e}"))?;
            self.books += 1;
            self.answers[number as usize] += 1;
            self.short_of_9 += (number == 13 && j.number == 9) as u64;
            self.short_of_none += (number == 13 && j.number == 0 && j.book.is_empty()) as u64;
            if number == 0 && !done {
                done = true;
                // The map leaves the work memory as the sweep entry does.
                compare_map(s, plain, 0)?;
                let counts = replayed(&plain.labels, j.regions, &book[..6 * j.book.len()])?;
                if counts != j.uncentred {
                    return Err("the entries, done over the region map, give other counts".into());
                }
            }
        }
        if j.number == 9 {
            self.refused_9[(j.merges > 1) as usize] += 1;
        }
        if j.number == 0 {
            self.accepted += 1;
            self.centred += s.centred as u64;
            self.wrapped += s.wrap as u64;
            self.in_parts += (!j.book.is_empty() && j.book.len() < j.asked) as u64;
            if j.book.is_empty() {
                self.ended[j.regions.min(2)] += 1;
            }
            self.entries.add(&j.book);
        }
        Ok(())
    }
}

/// Velocities some hundred folds apart, up to both sides of question 9, which is met at the first merge or at a later one.
pub fn far_apart(r: &mut Rng, n: usize, nyquist: f32) -> Vec<f32> {
    let apart = r.one_of(&[1, 300, 400, 500, 501, 600]);
    (0..n).map(|_| (2 * apart * (r.below(4) as i64 - 1) + r.one_of(&[0, 0, 1])) as f32 * nyquist).collect()
}

pub fn far(r: &mut Rng) -> Sweep {
    let (rays, gates) = (1 + r.below(3) as usize, 2 + r.below(6) as usize);
    let nyquist = r.one_of(&[0.125f32, 1.0, 2.0]);
    let velocities = far_apart(r, rays * gates, nyquist);
    let mask = (0..rays * gates).map(|_| (r.below(10) > 0) as u8).collect();
    let (skip_between_rays, skip_along_ray, centred, wrap) = (r.below(3) as u32, r.below(3) as u32, r.below(2) as u32, r.below(2) as u32);
    Sweep { rays, gates, nyquist, splits: 1, skip_between_rays, skip_along_ray, centred, wrap, velocities, mask }
}

fn made(r: &mut Rng, seed: u64) -> Sweep {
    match r.below(20) {
        0 => far(r),
        1..=6 => small(seed, 10 + seed % 118),
        7..=11 => doubtful(seed),
        _ => gapped(r),
    }
}

fn fail(line: String, e: String) -> ! {
    println!("DIFFERENT book: {e}\n{line}");
    std::process::exit(1)
}

/// `count` small sweeps; a tenth as many whose size, lengths or work memory are off; and the large ones.
pub fn run(count: u64) {
    let mut r = Rng(0x51AF_D7ED_558C_CD25);
    let mut t = Tally::default();
    // Seeds that no other part uses.
    for seed in (1 << 40..).take(count as usize) {
        let s = made(&mut r, seed);
        let j = judged(&s);
        let (l, lengths) = (lent(&mut r, s.rays * s.gates), lengths(&mut r, j.asked));
        t.compare_small(&mut r, &s, &j, &l, &lengths).unwrap_or_else(|e| fail(s.line(), e));
    }
    println!(
        "merge books: {}, of {count} small sweeps, by answer {:?}; 13 where the sweep entry answers 9: {}, where nothing merges: {}; sweeps that 9 refuses at their \
         first merge and later {:?}",
        t.books, t.answers, t.short_of_9, t.short_of_none, t.refused_9
    );
    println!(
        "their accepted sweeps: {}, centred {}, with wrap {}; merging nothing, of no region, one, more {:?}; merging, but not into one node {}",
        t.accepted, t.centred, t.wrapped, t.ended, t.in_parts
    );
    println!("their books have {}", t.entries.line());
    let mut t = Tally::default();
    for seed in (1 << 41..).take(count as usize / 10) {
        let mut s = made(&mut r, seed);
        let (mut l, mut j) = (lent(&mut r, s.rays * s.gates), judged(&s));
        let lengths = lengths(&mut r, j.asked);
        [j.number, _] = off(&mut r, &mut s, &mut l);
        t.compare_small(&mut r, &s, &j, &l, &lengths).unwrap_or_else(|e| fail(s.line(), e));
    }
    println!("merge books where sizes or lengths are off: {}, by answer {:?}", t.books, t.answers);
    let layered = LAYERS.map(|(solid, teeth, gates, folds)| ("layers".into(), layers(solid, teeth, gates, folds)));
    let weathers = WEATHER.map(|(rays, gates, rough)| (format!("weather of roughness {rough}"), weather(7, rays, gates, rough)));
    for (name, s) in layered.into_iter().chain(weathers) {
        let name = format!("{name}, {} x {}", s.rays, s.gates);
        let (l, j, mut t) = (lent(&mut r, s.rays * s.gates), judged(&s), Tally::default());
        // The main part holds the sweep entry to the Rust on the same sweeps.
        let mut plain = l.clone();
        on_sweep!(jivakkol_dealias_sweep, s, plain, folds, doubtful, pair);
        let exact = 6 * j.asked;
        t.compare(&mut r, &s, &j, &l, &mut plain, &[exact, exact - 1, exact + 16]).unwrap_or_else(|e| fail(name.clone(), e));
        println!("book of {name}: {}", t.entries.line());
    }
}
