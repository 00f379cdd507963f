//! Times the proved sweep entry beside the Rust on made weather and on test sweeps from seed 1, in one process, and the entry's stages one by one. Every
//! count of both sides is compared. Prints a table, and writes it to the file given: rows of comma-separated fields, for plot.py. Below the table stand
//! the crc32 of the test sweeps' fold counts and the time of one fill. Or, with `once`, `stages` or `two` and a weather sweep's rays, gates and
//! roughness, makes one call, times the stages alone, or times one call for two channels beside two sweep calls; with `window`, rays and gates, times one
//! arrival at a window of eight sweeps (window.rs).
extern crate radish_oracle;
use radish_oracle::dealias::dealias_region_based;
use radish_oracle::make::weather;
use radish_oracle::Sweep;
use std::hint::black_box;
use std::time::Instant;

#[path = "../include/jivakkol.rs"]
#[allow(dead_code)]
mod jivakkol;
use jivakkol::{jivakkol_dealias_sweep, jivakkol_dealias_two};
#[path = "../tests/differential/filled.rs"]
mod filled;
use filled::{crc32, fill, filled};
#[allow(dead_code)]
mod stages;
use stages::*;
mod window;

/// What a call is lent.
struct Lent {
    folds: Vec<i32>,
    doubtful: Vec<u8>,
    pair: [u32; 2],
    work: Vec<u32>,
    floats: Vec<f64>,
}

const SIZES: [(usize, usize); 4] = [(90, 250), (180, 500), (360, 1000), (720, 1200)];
const STAGES: [&str; 7] = ["intervals", "labels", "looks", "sort", "network", "output", "clearing"];

fn call(s: &Sweep, l: &mut Lent) {
    let number = unsafe {
        jivakkol_dealias_sweep(
            s.rays as u32, s.gates as u32, s.nyquist, s.splits, s.skip_between_rays, s.skip_along_ray, s.centred, s.wrap,
            s.velocities.as_ptr(), s.velocities.len(), s.mask.as_ptr(), s.mask.len(), l.folds.as_mut_ptr(), l.folds.len(),
            l.doubtful.as_mut_ptr(), l.doubtful.len(), l.pair.as_mut_ptr(), 2, l.work.as_mut_ptr(), l.work.len(), l.floats.as_mut_ptr(), l.floats.len(),
        )
    };
    assert_eq!(number, 0);
}

/// Horizontal's answer goes into `l`, whose work memory is lent, vertical's into `k`.
fn call_two(h: &Sweep, v: &Sweep, l: &mut Lent, k: &mut Lent) {
    let number = unsafe {
        jivakkol_dealias_two(
            h.rays as u32, h.gates as u32, h.nyquist, h.splits, h.skip_between_rays, h.skip_along_ray, h.centred, h.wrap,
            h.velocities.as_ptr(), h.velocities.len(), h.mask.as_ptr(), h.mask.len(), v.velocities.as_ptr(), v.velocities.len(), v.mask.as_ptr(), v.mask.len(),
            l.folds.as_mut_ptr(), l.folds.len(), l.doubtful.as_mut_ptr(), l.doubtful.len(), l.pair.as_mut_ptr(), 2,
            k.folds.as_mut_ptr(), k.folds.len(), k.doubtful.as_mut_ptr(), k.doubtful.len(), k.pair.as_mut_ptr(), 2,
            l.work.as_mut_ptr(), l.work.len(), l.floats.as_mut_ptr(), l.floats.len(),
        )
    };
    assert_eq!(number, 0);
}

/// The stages in the entry's order, each timed. `limits` are the sweep's own; what they cost is not in the figures (at most 10,000).
fn staged(s: &Sweep, limits: &[f64], l: &mut Lent) -> [f64; 7] {
    let (n, words, floats) = (s.rays * s.gates, l.work.len(), l.floats.len());
    let (vel, mask) = (s.velocities.as_ptr(), s.mask.as_ptr());
    let mut seconds = [0.0; 7];
    let mut from = Instant::now();
    let mut lap = |stage: usize| {
        seconds[stage] = from.elapsed().as_secs_f64();
        from = Instant::now();
    };
    unsafe {
        let w = l.work.as_mut_ptr();
        let d = l.floats.as_mut_ptr();
        let asked = stage_questions(
            s.rays as u32, s.gates as u32, s.nyquist, s.splits, s.skip_between_rays, s.skip_along_ray, s.centred, s.wrap, vel, n,
            mask, n, words, floats,
        );
        assert_eq!((asked, stage_range(vel, n, mask, n)), (0, 1));
        lap(0);
        let k = stage_labels(s.gates as u32, vel, n, mask, n, limits.as_ptr(), limits.len(), w, 3 * n + 64) as usize;
        lap(1);
        let m = stage_looks(s.rays, s.gates, s.skip_between_rays as usize, s.skip_along_ray as usize, s.wrap, w, words, n);
        lap(2);
        let (t, nodes) = (13 * n, k + 1);
        stage_sort(w, words, n, m, nodes);
        lap(3);
        let c = stage_count(w, words, n, m);
        let e = stage_edges(w, words, d, floats, vel, n, n, m, t, c, 2.0 * s.nyquist as f64);
        stage_sizes(w, words, n, n, nodes);
        stage_copy(w, words, n, t + 8 * e + 3 * nodes, nodes);
        assert_eq!(stage_merges(w.add(t), 14 * e + 8 * nodes, d, floats, e, nodes), 1);
        stage_copy(w, words, t + 8 * e + 6 * nodes, n + nodes, nodes);
        stage_copy(w, words, t + 8 * e + 7 * nodes, n + 2 * nodes, nodes);
        stage_copy(w, words, t + 8 * e + 8 * nodes, n + 3 * nodes, 6 * (k - 1));
        *w.add(n + nodes) = 1000;
        *w.add(n + 2 * nodes) = 0;
        lap(4);
        stage_output(w, words, n, k, mask, n, s.centred, l.folds.as_mut_ptr(), n, l.doubtful.as_mut_ptr(), n);
        lap(5);
        stage_clear(w, words, d, floats);
        lap(6);
    }
    seconds
}

/// The lesser seconds of each stage.
fn keep_least(least: &mut [f64; 7], run: [f64; 7]) {
    for (x, y) in least.iter_mut().zip(run) {
        *x = x.min(y);
    }
}

fn timed(run: impl FnOnce()) -> f64 {
    let from = Instant::now();
    run();
    from.elapsed().as_secs_f64()
}

/// The sweep's own limits, by the Rust: they depend on the least and the greatest valid velocity alone.
fn limits(s: &Sweep) -> Vec<f64> {
    let valid = s.velocities.iter().zip(&s.mask).filter(|(_, m)| **m == 1).map(|(v, _)| *v);
    let ends = valid.fold((f32::MAX, f32::MIN), |(lo, hi), v| (lo.min(v), hi.max(v)));
    Sweep { rays: 1, gates: 2, velocities: vec![ends.0, ends.1], mask: vec![1, 1], ..s.clone() }.trace().limits
}

fn lent(n: usize) -> Lent {
    Lent { folds: vec![7; n], doubtful: vec![7; n], pair: [7; 2], work: vec![7; 96 * n + 64], floats: vec![7.0; 16 * n + 16] }
}

/// What was lent held other values before a call.
fn make_dirty(l: &mut Lent) {
    l.work.fill(7);
    l.floats.fill(7.0);
    l.folds.fill(7);
    l.doubtful.fill(7);
}

/// The Rust's counts and its seconds. `dealias_region_based` refuses skips beyond the number of rays; there `dealias_sweep` itself is called,
/// with the copies of the arrays that its caller makes.
fn run_rust(s: &Sweep) -> (Vec<i32>, f64) {
    let (v, m, o) = (s.velocity(), s.valid(), s.options());
    let from = Instant::now();
    let refused = s.skip_between_rays as usize > s.rays;
    let counts = if refused { s.counts() } else { dealias_region_based(&v, &m, s.nyquist, s.wrap == 1, o).unwrap().iter().copied().collect() };
    (counts, from.elapsed().as_secs_f64())
}

/// The least seconds of the Rust, whose counts must be these.
fn beside_rust(s: &Sweep, ours: &[i32]) -> f64 {
    let mut best = f64::MAX;
    for _ in 0..5 {
        let (counts, seconds) = run_rust(s);
        assert!(counts == ours, "{} x {}: the counts differ from the Rust's", s.rays, s.gates);
        best = best.min(seconds);
        if best > 5.0 {
            break;
        }
    }
    best
}

/// One row: a sweep and its name, regions, merges, the crc32 of its counts, and the least seconds of the Rust, of the entry, of a plain fill of its work
/// memory and of each stage.
struct Row {
    rays: usize,
    gates: usize,
    name: String,
    pair: [u32; 2],
    crc32: u32,
    rust: f64,
    entry: f64,
    fill: f64,
    stages: [f64; 7],
}

impl Row {
    /// As a row of the table.
    fn shown(&self) -> String {
        let (rust, entry) = (self.rust, self.entry);
        let sweep = format!("| {} × {} | {} | {} | {} |", self.rays, self.gates, self.name, self.pair[0], self.pair[1]);
        let ratios = format!(" {rust:.4} | {entry:.4} | {:.1} | {:.1} | {:.4} |", rust / entry, rust / (entry - self.stages[6]), self.fill);
        sweep + &ratios + &self.stages.map(|x| format!(" {x:.4} |")).concat()
    }

    /// As fields for plot.py.
    fn fields(&self) -> String {
        let seconds = [self.rust, self.entry, self.fill].iter().chain(&self.stages).map(|x| format!(",{x}")).collect::<String>();
        format!("{},{},{},{},{}{seconds}\n", self.rays, self.gates, self.name, self.pair[0], self.pair[1])
    }
}

/// Times one sweep. Entry, stages and Rust must give the same counts.
fn measure(s: &Sweep, name: &str) -> Row {
    let limits = limits(s);
    let mut l = lent(s.rays * s.gates);
    let (mut entry, mut fill, mut stages) = (f64::MAX, f64::MAX, [f64::MAX; 7]);
    let mut ours: (Vec<i32>, Vec<u8>) = (Vec::new(), Vec::new());
    for _ in 0..7 {
        make_dirty(&mut l);
        entry = entry.min(timed(|| call(s, &mut l)));
        ours = (l.folds.clone(), l.doubtful.clone());
        make_dirty(&mut l);
        keep_least(&mut stages, staged(s, &limits, &mut l));
        assert!((&l.folds, &l.doubtful) == (&ours.0, &ours.1), "{} x {}, {name}: counts or marks of the stages differ", s.rays, s.gates);
        make_dirty(&mut l);
        fill = fill.min(timed(|| {
            l.work.fill(0);
            l.floats.fill(0.0);
            black_box((&l.work, &l.floats));
        }));
    }
    let rust = beside_rust(s, &ours.0);
    Row { rays: s.rays, gates: s.gates, name: name.into(), pair: l.pair, crc32: crc32(&ours.0), rust, entry, fill, stages }
}

/// The least seconds of twenty fills of one test sweep.
fn filling(rays: usize, gates: usize) -> f64 {
    let mut s = filled(1, rays, gates);
    let mut one = || timed(|| fill(1, rays, gates, &mut s.velocities, &mut s.mask));
    (0..20).map(|_| one()).fold(f64::MAX, f64::min)
}

/// The weather that three words name: rays, gates and roughness.
fn named(words: &[String]) -> Sweep {
    let number = |i: usize| words[i].parse::<usize>().expect("a number");
    weather(7, number(0), number(1), words[2].parse().expect("a roughness"))
}

/// One call of the entry, for a count of its instructions.
fn once(words: &[String]) {
    let s = named(words);
    let mut l = lent(s.rays * s.gates);
    call(&s, &mut l);
    println!("{} regions, {} merges", l.pair[0], l.pair[1]);
}

/// The stages of one sweep alone: a line each, with its least seconds of twenty runs.
fn alone(words: &[String]) {
    let s = named(words);
    let limits = limits(&s);
    let mut l = lent(s.rays * s.gates);
    let mut stages = [f64::MAX; 7];
    for _ in 0..20 {
        make_dirty(&mut l);
        keep_least(&mut stages, staged(&s, &limits, &mut l));
    }
    for (name, x) in STAGES.iter().zip(stages) {
        println!("{name} {x:.6}");
    }
}

/// One call for a weather sweep and another seed's as its vertical channel, beside a sweep call of each with the same work memory: the least seconds of twenty runs.
fn two(words: &[String]) {
    let h = named(words);
    let v = weather(8, h.rays, h.gates, words[2].parse().expect("a roughness"));
    let n = h.rays * h.gates;
    let (mut l, mut k) = (lent(n), lent(n));
    let (mut both, mut each) = (f64::MAX, f64::MAX);
    for _ in 0..20 {
        make_dirty(&mut l);
        both = both.min(timed(|| call_two(&h, &v, &mut l, &mut k)));
        make_dirty(&mut l);
        each = each.min(timed(|| {
            call(&h, &mut l);
            call(&v, &mut l);
        }));
    }
    println!("one call for two channels {both:.6}, a sweep call of each {each:.6}");
}

fn main() {
    let words: Vec<String> = std::env::args().skip(1).collect();
    if words.first().is_some_and(|x| x == "once") {
        return once(&words[1..]);
    }
    if words.first().is_some_and(|x| x == "stages") {
        return alone(&words[1..]);
    }
    if words.first().is_some_and(|x| x == "two") {
        return two(&words[1..]);
    }
    if words.first().is_some_and(|x| x == "window") {
        return window::window(&words[1..]);
    }
    let file = words.first().expect("a file to write the rows to");
    println!("| rays × gates | sweep | regions | merges | Rust s | entry s | ratio | without clearing | plain fill s | {} |", STAGES.join(" | "));
    println!("|{}", "---|".repeat(9 + STAGES.len()));
    let (mut rows, mut sums) = (String::new(), String::new());
    let mut add = |s: Sweep, name: &str| {
        let row = measure(&s, name);
        println!("{}", row.shown());
        rows += &row.fields();
        row
    };
    for rough in [0.0, 2.0, 8.0] {
        for (rays, gates) in SIZES {
            add(weather(7, rays, gates, rough), &format!("roughness {rough}"));
        }
    }
    for (rays, gates) in SIZES {
        let row = add(filled(1, rays, gates), "seed 1");
        sums += &format!("seed 1, {rays} × {gates}: crc32 of the fold counts {:08x}, of both sides\n", row.crc32);
    }
    print!("{sums}");
    println!("one fill of 720 × 1200: {:.6} s", filling(720, 1200));
    std::fs::write(file, rows).expect("the rows can be written");
}
