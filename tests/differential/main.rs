//! Feeds the same made sweeps to the proved entries (the static library) and to the Rust, in one process, and compares every result: answer
//! number, counts, marks, pair, labels, number of regions, and every word of lent memory that must or must not change. Sweep files: files.rs.
//! Edge records, from the stages of a call: records.rs. Merges at and beside a near tie: marks.rs. The merge book: books.rs. The second entry: velocity.rs.
//! Test sweeps from a seed number: seeds.rs. Two channels with the same limits: two.rs, and pairs.rs makes them. The wind over the last sweeps:
//! windows.rs, and arrivals.rs makes what arrives.
extern crate radish_oracle;
use radish_oracle::make::{sized, small, weather, Rng};
use radish_oracle::Sweep;
use std::collections::BTreeMap;

#[path = "../../include/jivakkol.rs"]
mod jivakkol;
use jivakkol::{jivakkol_dealias_sweep, jivakkol_region_map};
mod arrivals;
mod books;
mod files;
mod filled;
mod marks;
mod pairs;
mod records;
mod seeds;
mod two;
mod velocity;
mod windows;

/// What a call is lent; filled with values that a call must not leave where it clears, and must leave where it does not.
#[derive(Clone)]
struct Lent {
    folds: Vec<i32>,
    doubtful: Vec<u8>,
    pair: Vec<u32>,
    book: Vec<i32>,
    labels: Vec<u32>,
    regions: Vec<u32>,
    words: Vec<u32>,
    floats: Vec<f64>,
}

/// With no merge book.
fn lent(r: &mut Rng, n: usize) -> Lent {
    Lent {
        folds: (0..n).map(|_| r.next() as i32).collect(),
        doubtful: (0..n).map(|_| r.next() as u8).collect(),
        pair: vec![r.next() as u32, r.next() as u32],
        book: Vec::new(),
        labels: (0..n).map(|_| r.next() as u32).collect(),
        regions: vec![r.next() as u32],
        words: (0..96 * n + 64 + r.below(3) as usize).map(|_| r.next() as u32).collect(),
        floats: (0..16 * n + 16 + r.below(3) as usize).map(|_| f64::from_bits(r.next())).collect(),
    }
}

/// The call of an entry that takes a sweep, its options, slices of `Lent` to write, and the work memory.
macro_rules! on_sweep {
    ($entry:ident, $s:ident, $l:ident, $($slice:ident),+) => {
        unsafe {
            $entry(
                $s.rays as u32, $s.gates as u32, $s.nyquist, $s.splits, $s.skip_between_rays, $s.skip_along_ray, $s.centred, $s.wrap,
                $s.velocities.as_ptr(), $s.velocities.len(), $s.mask.as_ptr(), $s.mask.len(), $($l.$slice.as_mut_ptr(), $l.$slice.len(),)+
                $l.words.as_mut_ptr(), $l.words.len(), $l.floats.as_mut_ptr(), $l.floats.len(),
            )
        }
    };
}
pub(crate) use on_sweep;

fn bits(d: &[f64]) -> Vec<u64> {
    d.iter().map(|x| x.to_bits()).collect()
}

/// Whether the work memory is as it must be after a call on n gates: where it clears, the asked words are zero and further ones as before.
fn work_left(n: usize, clears: bool, before: &Lent, after: &Lent) -> Result<(), String> {
    let (w, d) = if clears { (96 * n + 64, 16 * n + 16) } else { (0, 0) };
    if after.words[..w].iter().any(|&x| x != 0) || after.words[w..] != before.words[w..] {
        return Err("words".into());
    }
    if bits(&after.floats[..d]).iter().any(|&x| x != 0) || bits(&after.floats[d..]) != bits(&before.floats[d..]) {
        return Err("floats".into());
    }
    Ok(())
}

/// The number that must come, and whether all that is lent is as it must be afterwards.
fn compare(s: &Sweep, l: &mut Lent, expected: u32) -> Result<u32, String> {
    let before = l.clone();
    let number = on_sweep!(jivakkol_dealias_sweep, s, l, folds, doubtful, pair);
    if number != expected {
        return Err(format!("answer {number}, expected {expected}"));
    }
    if number == 0 {
        let a = s.answer();
        if l.folds != a.counts || l.pair != [a.regions, a.merges] {
            return Err("counts or pair".into());
        }
        if let Some(g) = (0..a.doubtful.len()).find(|&g| l.doubtful[g] != a.doubtful[g]) {
            return Err(format!("mark {} at gate {g}, expected {}", l.doubtful[g], a.doubtful[g]));
        }
    } else if l.folds != before.folds || l.doubtful != before.doubtful || l.pair != before.pair {
        return Err("a refusal changed counts, marks or pair".into());
    }
    work_left(s.rays * s.gates, number == 0 || number == 9, &before, l)?;
    Ok(number)
}

/// The same of the region map, held to the Rust's own labels.
fn compare_map(s: &Sweep, l: &mut Lent, expected: u32) -> Result<u32, String> {
    let before = l.clone();
    let number = on_sweep!(jivakkol_region_map, s, l, labels, regions);
    if number != expected {
        return Err(format!("map: answer {number}, expected {expected}"));
    }
    if number == 0 {
        let (labels, regions) = s.region_map();
        if l.labels != labels || l.regions != [regions] {
            return Err("map: labels or number of regions".into());
        }
    } else if l.labels != before.labels || l.regions != before.regions {
        return Err("map: a refusal changed labels or number".into());
    }
    work_left(s.rays * s.gates, number == 0, &before, l).map_err(|e| format!("map: {e}"))?;
    Ok(number)
}

/// Both calls on a sweep that is lent as much as it asks for: the answer of the sweep entry and that of the map. Where the sweep is
/// accepted, the map's number of regions must be the pair's first, and the second entry must take the counts and labels that they left.
fn compare_both(s: &Sweep, l: &mut Lent, expected: u32) -> Result<(u32, u32), String> {
    let number = compare(s, l, expected)?;
    let mapped = compare_map(s, l, s.refused_before_merging())?;
    if number == 0 && l.regions[0] != l.pair[0] {
        return Err("the map's number of regions is not the pair's".into());
    }
    if number == 0 {
        velocity::compare_left(s, &l.folds, &l.labels)?;
    }
    Ok((number, mapped))
}

/// All entries on a sweep that is lent as much as it asks for, the second with counts made up: the answer of the sweep entry and that of the map.
fn compare_all(r: &mut Rng, s: &Sweep) -> Result<(u32, u32), String> {
    let mut l = lent(r, s.rays * s.gates);
    let answers = compare_both(s, &mut l, s.answer().number)?;
    let folds: Vec<i32> = l.folds.iter().map(|_| if r.below(50) == 0 { r.next() as i32 } else { r.below(4001) as i32 - 2000 }).collect();
    let mut unfolded: Vec<f64> = folds.iter().map(|_| f64::from_bits(r.next())).collect();
    velocity::compare(s, &folds, &l.labels, &mut unfolded)?;
    Ok(answers)
}

/// How many of `count` sweeps get each answer, their rays and gates being `size` of a number from 0 to 3; or the first that differs, and how.
fn answers_by_size(r: &mut Rng, count: u64, size: impl Fn(usize) -> (usize, usize)) -> Result<[u64; 11], (String, String)> {
    let mut answers = [0; 11];
    for seed in 1..=count {
        let (rays, gates) = size(r.below(4) as usize);
        let s = sized(seed, rays, gates);
        let (number, _) = compare_all(r, &s).map_err(|e| (s.line(), e))?;
        answers[number as usize] += 1;
    }
    Ok(answers)
}

/// A sweep whose size or lengths are off, or whose work memory is short: the number of the first question missed, by the sweep entry and by the
/// region map, which is lent no marks.
fn off(r: &mut Rng, s: &mut Sweep, l: &mut Lent) -> [u32; 2] {
    let first = s.refused_before_merging();
    let early = |q: u32| if first != 0 && first < q { first } else { q };
    let both = |q: u32| [early(q); 2];
    match r.below(10) {
        0 => { s.velocities.push(1.0); both(2) }
        1 => { s.mask.push(1); both(2) }
        2 => { l.folds.push(0); l.labels.push(0); both(2) }
        3 => { l.pair.push(0); l.regions.push(0); both(2) }
        4 => { l.words.truncate(96 * s.rays * s.gates + 63); both(4) }
        5 => { l.floats.truncate(16 * s.rays * s.gates + 15); both(4) }
        6 => { s.rays += 721; both(1) }
        7 => { s.gates += 1201; both(1) }
        8 if !l.doubtful.is_empty() => { l.doubtful.pop(); [early(2), first] }
        _ => { l.doubtful.push(0); [early(2), first] }
    }
}

/// An uncentred sweep with no gap between its gates' looks (skips 0).
fn close(rays: usize, gates: usize, nyquist: f32, splits: u32, velocities: Vec<f32>) -> Sweep {
    let mask = vec![1; velocities.len()];
    Sweep { rays, gates, nyquist, splits, skip_between_rays: 0, skip_along_ray: 0, centred: 0, wrap: 0, velocities, mask }
}

/// Velocities of either sign from 2^-100 of Nyquist to Nyquist: the f64 sums of an edge with several of them are inexact.
fn inexact(r: &mut Rng) -> Sweep {
    let (rays, gates) = (1 + r.below(8) as usize, 4 + r.below(12) as usize);
    let nyquist = r.one_of(&[1.0, 10.0, 0.125, 1024.0]);
    // Rays take turns in sign, but for some gates, so that edges have many pairs.
    let velocities = (0..rays * gates)
        .map(|g| {
            let sign = if (g / gates % 2 == 1) == (r.below(12) > 0) { -1.0 } else { 1.0 };
            let power = r.one_of(&[0, 0, 0, 30, 33, 36, 39, 42, 45, 100]);
            (sign * nyquist as f64 * (0.5 + r.unit() / 2.0) * 0.5f64.powi(power)) as f32
        })
        .collect();
    let mut s = close(rays, gates, nyquist, r.one_of(&[2, 2, 2, 2, 3]), velocities);
    s.mask.iter_mut().for_each(|m| *m = (r.below(16) > 0) as u8);
    (s.centred, s.wrap) = (r.below(2) as u32, r.below(2) as u32);
    s
}

/// Two regions side by side whose difference over their weight is a half but for a last bit. Half of the upper region's velocities are so
/// small that an f64 sum loses them or keeps them by the order of its terms; that decides how the difference is narrowed to f32, and the count.
fn tipping(r: &mut Rng) -> Sweep {
    let length = 4 + r.below(60) as usize;
    let last = 2f32.powi(length.ilog2() as i32 - 24);
    let mut upper: Vec<f32> = Vec::new();
    for g in 0..length {
        let small = last * 0.5f32.powi(31 + r.below(2) as i32);
        let large = r.one_of(&[4.0, 5.0, 6.0, 7.0]) / 8.0;
        upper.insert(r.below(g as u64 + 1) as usize, if g < length / 2 { small } else { large });
    }
    // The large velocities of both add up to the length, and half a last bit of the f32 difference is added.
    let eighths = 8 * length - upper.iter().map(|v| (8.0 * v) as usize).sum::<usize>();
    let mut lower: Vec<f32> = (0..length).map(|g| -((eighths / length + (g < eighths % length) as usize) as f32) / 8.0).collect();
    lower[r.below(length as u64) as usize] -= last;
    if r.below(2) == 0 {
        upper.extend(&lower);
        return close(2, length, 1.0, 2, upper);
    }
    close(length, 2, 1.0, 2, upper.iter().zip(&lower).flat_map(|(u, l)| [*u, *l]).collect())
}

/// Which of a sweep's edges have other f64 sums, another f32 difference and another rounded difference if their pairs are summed in
/// reverse order: whether any has. The sweep's skips are 0. In scan order the sums must be those of the Rust's records.
fn reversed(s: &Sweep) -> [bool; 3] {
    let t = s.trace();
    let (rays, gates) = (s.rays, s.gates);
    // By second label, then first: the order of the records.
    let mut pairs: BTreeMap<(i32, i32), Vec<(f64, f64)>> = BTreeMap::new();
    for g in (0..rays * gates).filter(|&g| t.labels[g] != 0) {
        let (x, y) = (g / gates, g % gates);
        let left = if x > 0 { Some(g - gates) } else if s.wrap == 1 { Some(g + (rays - 1) * gates) } else { None };
        let right = if x + 1 < rays { Some(g + gates) } else if s.wrap == 1 { Some(y) } else { None };
        let (top, bottom) = (if y > 0 { Some(g - 1) } else { None }, if y + 1 < gates { Some(g + 1) } else { None });
        for o in [left, right, top, bottom].into_iter().flatten() {
            if t.labels[o] != 0 && t.labels[o] != t.labels[g] {
                pairs.entry((t.labels[o], t.labels[g])).or_default().push((s.velocities[g] as f64, s.velocities[o] as f64));
            }
        }
    }
    let add = |a: (f64, f64), b: &(f64, f64)| (a.0 + b.0, a.1 + b.1);
    let mut other = [false; 3];
    // Below two regions the Rust looks for no records, and here there are no pairs.
    assert_eq!(pairs.len(), t.records.len());
    for (((second, first), list), record) in pairs.iter().zip(&t.records) {
        let forth = list[1..].iter().fold(list[0], add);
        let back = list[..list.len() - 1].iter().rev().fold(list[list.len() - 1], add);
        assert_eq!((record.0, record.1, record.2), (*first, *second, list.len() as i32));
        assert_eq!((record.3, record.4), forth);
        if first > second {
            let difference = |x: (f64, f64)| ((x.0 - x.1) / (2.0 * s.nyquist as f64)) as f32;
            let rounded = |x| (difference(x) as f64 / list.len() as f64).round_ties_even();
            other[0] |= forth != back;
            other[1] |= difference(forth) != difference(back);
            other[2] |= rounded(forth) != rounded(back);
        }
    }
    other
}

/// Three regions, Nyquist 0.125: a base, solid and then in interlocking combs with the moved region, and a third in combs with the moved one.
/// The base lies `folds` folds above the moved region, and the third half a fold above the base. The third sees the moved region alone, by
/// teeth x (gates - 1) + 1 pairs; the base sees it by more, and is larger. So the moved region is moved by `folds` first, and the third's
/// count then hangs on the last bit of weight x folds in its difference.
fn layers(solid: usize, teeth: usize, gates: usize, folds: usize) -> Sweep {
    let at = |halves: i64| (halves as f32) / 16.0; // half a Nyquist velocity is 1/16
    let f = folds as i64;
    let (base, moved, third) = (at(2 * f - 1), at(-2 * f - 1), at(2 * f + 1));
    let rays = solid + teeth + 1 + teeth;
    let mut velocities = Vec::with_capacity(rays * gates);
    for x in 0..rays {
        for y in 0..gates {
            let comb = |own: f32, turn: bool| if y == 0 || (y < gates - 1 && turn) { own } else { moved };
            velocities.push(if x < solid {
                base
            } else if x < solid + teeth {
                comb(base, (x - solid) % 2 == 1)
            } else if x == solid + teeth {
                moved
            } else {
                comb(third, (x - solid - teeth - 1) % 2 == 0)
            });
        }
    }
    close(rays, gates, 0.125, 1, velocities)
}

/// The third region's count in `layers`: with weight x folds rounded to f32 and then added, and with both added in f64 and rounded once.
fn third_count(teeth: usize, gates: usize, folds: usize) -> (i32, i32) {
    let (weight, product) = (teeth * (gates - 1) + 1, (teeth * (gates - 1) + 1) * folds);
    let difference = (weight as f64 * (folds as f64 + 0.5)) as f32;
    let (first, once) = (difference - product as f32, (difference as f64 - product as f64) as f32);
    let count = |d: f32| -(d as f64 / weight as f64).round_ties_even() as i32;
    (count(first), count(once))
}

/// A number that the C header defines.
fn in_header(name: &str) -> usize {
    let line = include_str!("../../include/jivakkol.h").lines().find(|x| x.starts_with(&format!("#define {name} "))).expect(name);
    line.split(' ').last().and_then(|x| x.parse().ok()).expect(line)
}

/// Rays, and gates a ray, on both sides of the limits of question 1.
const RAYS: [usize; 3] = [719, 720, 721];
const GATES: [usize; 5] = [1199, 1200, 1201, 2000, 2001];

/// Rays of the base alone, teeth, gates and folds of the layered sweeps: 138 x 312 and 720 x 1,200 gates.
const LAYERS: [(usize, usize, usize, usize); 2] = [(29, 54, 312, 999), (159, 280, 1200, 51)];

/// Rays, gates and roughness of the weather sweeps.
const WEATHER: [(usize, usize, f64); 9] = [
    (90, 250, 0.0), (90, 250, 2.0), (360, 500, 0.0), (360, 500, 2.0), (180, 500, 8.0), (360, 1000, 0.0), (360, 1000, 2.0),
    (720, 1200, 0.0), (720, 1200, 2.0),
];

/// Weather whose merges take the Rust long: its region map alone is compared here, and its counts by bench/.
const BROKEN: [(usize, usize, f64); 2] = [(360, 1000, 8.0), (720, 1200, 8.0)];

fn main() {
    let count: u64 = std::env::args().nth(1).map_or(20_000, |x| x.parse().unwrap());
    let mut r = Rng(0x9E37_79B9_7F4A_7C15);
    let (mut seen, mut mapped) = ([0u64; 11], [0u64; 11]);
    let fail = |what: &str, line: String, e: String| {
        println!("DIFFERENT {what}: {e}\n{line}");
        std::process::exit(1)
    };
    for seed in 1..=count {
        let s = small(seed, 10 + seed % 118);
        match compare_all(&mut r, &s) {
            Ok((k, m)) => {
                seen[k as usize] += 1;
                mapped[m as usize] += 1;
            }
            Err(e) => fail("small", s.line(), e),
        }
    }
    println!("small sweeps: {count}, by answer {seen:?}; unfolded velocities: {count}");
    println!("region maps of the same, by answer {mapped:?}");
    assert_eq!((in_header("JIVAKKOL_MOST_RAYS"), in_header("JIVAKKOL_MOST_GATES")), (720, 1200));
    let each = count.div_ceil(1000);
    let report = |size: String, answers: Result<[u64; 11], (String, String)>| match answers {
        Ok(answers) => println!("{size}: {each}, by answer {answers:?}; their maps and unfolded velocities"),
        Err((line, e)) => fail("at the limits of question 1", line, e),
    };
    for rays in RAYS {
        report(format!("{rays} rays of 0 to 3 gates"), answers_by_size(&mut r, each, |few| (rays, few)));
    }
    for gates in GATES {
        report(format!("0 to 3 rays of {gates} gates"), answers_by_size(&mut r, each, |few| (few, gates)));
    }
    let mut offs = [[0u64; 11]; 2];
    for seed in 1..=count / 10 {
        let mut s = small(seed, 12);
        let mut l = lent(&mut r, s.rays * s.gates);
        let expected = off(&mut r, &mut s, &mut l);
        if let Err(e) = compare(&s, &mut l, expected[0]).and_then(|_| compare_map(&s, &mut l, expected[1])) {
            fail("sizes or lengths off", s.line(), e);
        }
        offs.iter_mut().zip(expected).for_each(|(seen, k)| seen[k as usize] += 1);
    }
    println!("sizes or lengths off: {}, by answer {:?}, of the region map {:?}", count / 10, offs[0], offs[1]);
    velocity::run(count);
    windows::run(count);
    marks::run(15 * count);
    files::run(count);
    records::run(count / 2);
    books::run(count);
    seeds::run(count);
    two::run(count);
    for (name, make) in [("velocities of many exponents", inexact as fn(&mut Rng) -> Sweep), ("tipping sums", tipping)] {
        let mut other = [0u64; 3];
        for _ in 0..count / 10 {
            let s = make(&mut r);
            let mut l = lent(&mut r, s.rays * s.gates);
            if let Err(e) = compare_both(&s, &mut l, 0) {
                fail(name, s.line(), e);
            }
            other.iter_mut().zip(reversed(&s)).for_each(|(k, o)| *k += o as u64);
        }
        println!(
            "{name}: {}, equal; summed in reverse, other f64 sums in {}, another f32 difference in {}, another rounded difference in {}",
            count / 10, other[0], other[1], other[2]
        );
    }
    for (solid, teeth, gates, folds) in LAYERS {
        let s = layers(solid, teeth, gates, folds);
        let mut l = lent(&mut r, s.rays * s.gates);
        if let Err(e) = compare_both(&s, &mut l, 0) {
            fail("layers", format!("{} x {gates}, {folds} folds", s.rays), e);
        }
        let (first, once) = third_count(teeth, gates, folds);
        let third = l.folds[(solid + teeth + 1) * gates];
        let moved = l.folds[(solid + teeth) * gates];
        assert_eq!((l.folds[0], moved, third), (0, folds as i32, first));
        println!(
            "layers {} x {gates}: weight x folds {} x {folds}, {} regions, {} merges, equal; the third region's count is {third}, and {once} if added in f64",
            s.rays, teeth * (gates - 1) + 1, l.pair[0], l.pair[1]
        );
    }
    for (rays, gates, rough) in WEATHER {
        let s = weather(7, rays, gates, rough);
        let mut l = lent(&mut r, rays * gates);
        if let Err(e) = compare_both(&s, &mut l, 0) {
            fail("weather", format!("{rays} x {gates} roughness {rough}"), e);
        }
        let marked = l.doubtful.iter().filter(|d| **d == 1).count();
        println!("weather {rays} x {gates}, roughness {rough}: {} regions, {} merges, {marked} gates marked, equal", l.pair[0], l.pair[1]);
    }
    for (rays, gates, rough) in BROKEN {
        let s = weather(7, rays, gates, rough);
        let mut l = lent(&mut r, rays * gates);
        if let Err(e) = compare_map(&s, &mut l, 0) {
            fail("map of weather", format!("{rays} x {gates} roughness {rough}"), e);
        }
        println!("map of weather {rays} x {gates}, roughness {rough}: {} regions, equal", l.regions[0]);
    }
}
