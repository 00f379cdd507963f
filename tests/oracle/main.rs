//! oracle make SEED COUNT MOST   print COUNT small sweeps of at most MOST gates, one a line
//! oracle doubtful SEED COUNT    print COUNT sweeps of 2 to 24 gates, many with merges at or beside 7/16, 1/2 and 9/16 of a fold, one a line
//! oracle answer                 read sweeps, one a line; print the Rust's answer to each, one a line
//! oracle counts                 the same with no question put: the counts that `dealias_sweep` gives, or `error`
//! oracle marks                  read sweeps, one a line; print the number of the answer and, where it is 0, the mark of each gate
//! oracle map                    read sweeps, one a line; print the number of the first of questions 1 to 8 that gets a no, or 0, regions and the Rust's labels
//! oracle records                read sweeps, one a line; print the Rust's records that become edges: labels, count, count less that with both skips 0
//! oracle entries                read sweeps, one a line; print the number of the answer and, where it is 0, eight numbers a merge: the six of its
//!                               entry in the book, how many records its edge is made of, and the base's gates before it
//! oracle two                    read sweeps, two lines a pair of channels; print the number of the answer by the limits of both and, where it is 0,
//!                               regions, merges, counts and marks of each channel
//! oracle calls                  read recorded calls, one a line; print the lines of the entries
//! oracle unfold                 read a recorded list of sweep files; print for each a line with `=` and its number, and what the program over files prints
//! oracle book                   the same with what the program over files prints of the merge book
//! oracle numbers                read the same; print for each the number of the first refusal, the reader's or the sweep's, or 0
//! oracle trace                  read one sweep; print limits, labels, records, merges, uncentred counts and marks
//! oracle time RAYS GATES ROUGHNESS REPS   time `dealias_region_based` on a made weather sweep

use radish_oracle::{file, is_doubtful, make, pair::Pair, Call, Sweep};
use std::io::{BufRead, Read, Write};

fn main() {
    let args: Vec<String> = std::env::args().skip(1).collect();
    let number = |i: usize| args.get(i).and_then(|a| a.parse::<u64>().ok()).unwrap_or(0);
    let out = std::io::stdout();
    let mut out = std::io::BufWriter::new(out.lock());
    match args.first().map(|s| s.as_str()) {
        Some(what @ ("make" | "doubtful")) => {
            for seed in (0..number(2)).map(|k| number(1) * 1_000_003 + k) {
                let s = if what == "make" { make::small(seed, number(3)) } else { make::doubtful(seed) };
                writeln!(out, "{}", s.line()).unwrap();
            }
        }
        Some(what @ ("answer" | "counts" | "marks" | "map" | "records" | "entries")) => {
            for line in std::io::stdin().lock().lines() {
                let line = line.unwrap();
                let text = match Sweep::parse(&line) {
                    Some(s) if what == "answer" => s.answer().line(),
                    Some(s) if what == "marks" => s.marks_line(),
                    Some(s) if what == "map" => s.map_line(None),
                    Some(s) if what == "records" => s.records_line(),
                    Some(s) if what == "entries" => s.entries_line(),
                    Some(s) => match s.counts_or_none() {
                        Some(counts) => counts.iter().map(|c| c.to_string()).collect::<Vec<_>>().join(" "),
                        None => "error".into(),
                    },
                    None => "unreadable".into(),
                };
                writeln!(out, "{text}").unwrap();
            }
        }
        Some("two") => {
            let mut lines = std::io::stdin().lock().lines().map(|line| line.unwrap());
            while let (Some(h), Some(v)) = (lines.next(), lines.next()) {
                let text = match (Sweep::parse(&h), Sweep::parse(&v)) {
                    (Some(h), Some(v)) => Pair { channels: [h, v] }.line(),
                    _ => "unreadable".into(),
                };
                writeln!(out, "{text}").unwrap();
            }
        }
        Some("calls") => {
            for line in std::io::stdin().lock().lines() {
                match Call::parse(&line.unwrap()) {
                    Some(call) => call.lines().iter().for_each(|text| writeln!(out, "{text}").unwrap()),
                    None => writeln!(out, "unreadable").unwrap(),
                }
            }
        }
        Some(what @ ("unfold" | "book" | "numbers")) => {
            let mut list = Vec::new();
            std::io::stdin().lock().read_to_end(&mut list).unwrap();
            for f in file::files(&list).expect("files, each after its length") {
                if what == "numbers" {
                    writeln!(out, "{}", file::accepted(f).map_or_else(|number| number, |_| 0)).unwrap();
                    continue;
                }
                let (number, lines) = if what == "book" { file::booked(f) } else { file::unfolded(f) };
                writeln!(out, "= {number}").unwrap();
                lines.iter().for_each(|text| writeln!(out, "{text}").unwrap());
            }
        }
        Some("trace") => {
            let mut line = String::new();
            std::io::stdin().lock().read_line(&mut line).unwrap();
            let s = Sweep::parse(&line).expect("a sweep on one line");
            let n = s.refused_before_merging();
            if n != 0 {
                writeln!(out, "refused {n}").unwrap();
                return;
            }
            let t = s.trace();
            writeln!(out, "limits {:?}", t.limits).unwrap();
            writeln!(out, "regions {} labels {:?}", t.regions, t.labels).unwrap();
            for e in &t.records {
                writeln!(out, "record {} {} count {} sums {:?} {:?}", e.0, e.1, e.2, e.3, e.4).unwrap();
            }
            for ((quotient, weight), m) in t.quotients.iter().zip(&t.merged) {
                writeln!(out, "merge of weight {weight}, difference over it {quotient:?}, doubtful {}", is_doubtful(*quotient)).unwrap();
                writeln!(out, "  node {} of {} gates into {} of {}, gaining {}", m.moved, m.gates, m.base, m.base_gates, m.folds).unwrap();
            }
            writeln!(out, "merges {} within {} uncentred {:?} marks {:?}", t.merges, t.within, t.uncentred, t.doubtful).unwrap();
            writeln!(out, "counts {:?}", if t.within { s.counts() } else { Vec::new() }).unwrap();
        }
        Some("time") => {
            let rough = args.get(3).and_then(|a| a.parse::<f64>().ok()).unwrap_or(0.0);
            let s = make::weather(7, number(1) as usize, number(2) as usize, rough);
            let t = s.trace();
            let (v, m, o) = (s.velocity(), s.valid(), s.options());
            let mut best = f64::MAX;
            for _ in 0..number(4).max(1) {
                let from = std::time::Instant::now();
                let f = radish_oracle::dealias::dealias_region_based(&v, &m, s.nyquist, s.wrap == 1, o).unwrap();
                best = best.min(from.elapsed().as_secs_f64());
                assert_eq!(f.dim(), (s.rays, s.gates));
            }
            writeln!(out, "rays {} gates {} regions {} merges {} seconds {:.4}", s.rays, s.gates, t.regions, t.merges, best).unwrap();
        }
        _ => {
            eprintln!("usage: oracle make SEED COUNT MOST | doubtful SEED COUNT | answer | two | calls | counts | marks | map | records | entries");
            eprintln!("       oracle unfold | book | numbers | trace");
            eprintln!("       oracle time RAYS GATES ROUGHNESS REPS");
            std::process::exit(2);
        }
    }
}
