//! One arrival at a window that holds eight sweeps, beside a plain pass over the window's memory.
use crate::jivakkol::{jivakkol_region_map, jivakkol_window_add};
use crate::{call, lent, timed};
use radish_oracle::make::{weather, Rng};
use radish_oracle::Sweep;
use std::hint::black_box;

/// A sweep with its counts and labels.
struct Arrival {
    sweep: Sweep,
    folds: Vec<i32>,
    labels: Vec<u32>,
}

/// What is lent of a window.
struct Window {
    words: [u32; 4],
    winds: Vec<f64>,
    shown: Vec<u8>,
    picture: Vec<f64>,
    marks: Vec<u8>,
}

impl Window {
    fn empty(rays: usize, gates: usize) -> Window {
        let m = rays * gates;
        Window { words: [rays as u32, gates as u32, 0, 0], winds: vec![7.0; 8 * m], shown: vec![7; 8 * m], picture: vec![7.0; m], marks: vec![7; m] }
    }

    fn add(&mut self, a: &Arrival) {
        let s = &a.sweep;
        let number = unsafe {
            jivakkol_window_add(
                s.rays as u32, s.gates as u32, s.nyquist, s.velocities.as_ptr(), s.velocities.len(), s.mask.as_ptr(), s.mask.len(),
                a.folds.as_ptr(), a.folds.len(), a.labels.as_ptr(), a.labels.len(), self.words.as_mut_ptr(), 4, self.winds.as_mut_ptr(), self.winds.len(),
                self.shown.as_mut_ptr(), self.shown.len(), self.picture.as_mut_ptr(), self.picture.len(), self.marks.as_mut_ptr(), self.marks.len(),
            )
        };
        assert_eq!(number, 0);
    }

    /// All winds and all bytes added up.
    fn pass(&self) -> (f64, u64) {
        let (mut winds, mut shown) = (0.0, 0);
        for x in &self.winds {
            winds += x;
        }
        for x in &self.shown {
            shown += *x as u64;
        }
        (winds, shown)
    }
}

/// Nine weather sweeps, each of a seed of its own and turned by some rays, so that their holes lie apart; counts and labels are the entries'.
fn arrivals(rays: usize, gates: usize) -> Vec<Arrival> {
    let mut l = lent(rays * gates);
    let one = |k: usize| {
        let mut s = weather(7 + k as u64, rays, gates, 0.0);
        let (mut labels, mut regions, by) = (vec![7; rays * gates], 7, k * rays / 9 * gates);
        s.velocities.rotate_left(by);
        s.mask.rotate_left(by);
        call(&s, &mut l);
        let number = unsafe {
            jivakkol_region_map(
                s.rays as u32, s.gates as u32, s.nyquist, s.splits, s.skip_between_rays, s.skip_along_ray, s.centred, s.wrap,
                s.velocities.as_ptr(), s.velocities.len(), s.mask.as_ptr(), s.mask.len(), labels.as_mut_ptr(), labels.len(), &mut regions, 1,
                l.work.as_mut_ptr(), l.work.len(), l.floats.as_mut_ptr(), l.floats.len(),
            )
        };
        assert_eq!(number, 0);
        Arrival { sweep: s, folds: l.folds.clone(), labels }
    };
    (0..9).map(one).collect()
}

/// The same with so many gates of a hundred masked at random, in each sweep others, and a label at every gate.
fn masked(arrivals: &[Arrival], percent: u64) -> Vec<Arrival> {
    let mut r = Rng(0x5851_F42D_4C95_7F2D);
    let one = |a: &Arrival| {
        let mut sweep = a.sweep.clone();
        sweep.mask.iter_mut().for_each(|m| *m = (r.below(100) >= percent) as u8);
        Arrival { sweep, folds: a.folds.clone(), labels: vec![1; a.labels.len()] }
    };
    arrivals.iter().map(one).collect()
}

/// The least seconds of twenty arrivals and of twenty plain passes, the window holding eight.
fn measure(name: &str, arrivals: &[Arrival]) {
    let s = &arrivals[0].sweep;
    let mut w = Window::empty(s.rays, s.gates);
    arrivals[1..].iter().for_each(|a| w.add(a));
    let (mut arrival, mut pass) = (f64::MAX, f64::MAX);
    for k in 0..20 {
        arrival = arrival.min(timed(|| w.add(&arrivals[k % arrivals.len()])));
        pass = pass.min(timed(|| {
            black_box(black_box(&w).pass());
        }));
    }
    assert_eq!(w.words[2], 8);
    println!("{name}: one arrival {arrival:.6}, a plain pass over the window {pass:.6}, ratio {:.2}", arrival / pass);
}

/// A line for each sort of sweep, by its masked gates. Two words say rays and gates.
pub fn window(words: &[String]) {
    let number = |i: usize| words[i].parse::<usize>().expect("a number");
    let made = arrivals(number(0), number(1));
    measure("all gates valid", &masked(&made, 0));
    measure("echoes in runs", &made);
    measure("10 % masked at random", &masked(&made, 10));
    measure("50 % masked at random", &masked(&made, 50));
}
