//! The merge book: an entry a merge, from what the Rust's trackers show of it. Bridged pairs, which radish has not, are counted here.

use crate::{Sweep, Trace};

/// An entry: base, moved node, weight, bridged pairs, folds moved, gates moved. With it how many records the merge's edge is made of, and the
/// base's gates before the merge.
#[derive(Debug, Clone, Copy, PartialEq)]
pub struct Entry {
    pub numbers: [i32; 6],
    pub records: u32,
    pub base_gates: i64,
}

impl Sweep {
    /// The book of the merges that `t` shows. Edges of the same two nodes combine, so that the edge of a merge has the pairs of all records between
    /// regions of the one node and of the other: its bridged pairs are the sum of theirs. The sum of their pairs must be the Rust's weight.
    pub fn book(&self, t: &Trace) -> Vec<Entry> {
        let labels: Vec<u32> = t.labels.iter().map(|&l| l as u32).collect();
        // For each region the others that it has a record with, its pairs and those of them that are bridged.
        let mut around = vec![Vec::new(); t.regions + 1];
        for (record, bridged) in self.edges(&labels) {
            let (first, second) = (record.0 as usize, record.1 as usize);
            around[first].push((second, record.2, bridged));
            around[second].push((first, record.2, bridged));
        }
        let mut node_of: Vec<usize> = (0..=t.regions).collect();
        let mut regions_in: Vec<Vec<usize>> = (0..=t.regions).map(|region| vec![region]).collect();
        let mut book = Vec::new();
        for m in &t.merged {
            let moved = std::mem::take(&mut regions_in[m.moved]);
            let (mut weight, mut bridged, mut records) = (0, 0, 0);
            for (_, pairs, of_them) in moved.iter().flat_map(|&region| &around[region]).filter(|x| node_of[x.0] == m.base) {
                weight += pairs;
                bridged += of_them;
                records += 1;
            }
            assert_eq!(weight, m.weight, "pairs of the records between two nodes, and the weight of their edge");
            moved.iter().for_each(|&region| node_of[region] = m.base);
            regions_in[m.base].extend(moved);
            let numbers = [m.base as i32, m.moved as i32, m.weight, bridged, m.folds, m.gates as i32];
            book.push(Entry { numbers, records, base_gates: m.base_gates });
        }
        book
    }

    /// One line for the book: the number; where it is 0 also eight numbers a merge.
    pub fn entries_line(&self) -> String {
        let number = self.answer().number;
        let book = if number == 0 { self.book(&self.trace()) } else { Vec::new() };
        let of = |e: &Entry| e.numbers.into_iter().map(|x| x as i64).chain([e.records as i64, e.base_gates]);
        std::iter::once(number as i64).chain(book.iter().flat_map(of)).map(|x| x.to_string()).collect::<Vec<_>>().join(" ")
    }
}

/// What the program prints of a book: an entry a line, and at the end how many there are, the sum of their weights and that of the gates moved.
pub fn lines(book: &[Entry]) -> Vec<String> {
    let line = |e: &Entry| e.numbers.map(|x| x.to_string()).join(" ");
    let sum = |place: usize| book.iter().map(|e| e.numbers[place] as i64).sum::<i64>();
    book.iter().map(line).chain([format!("{} {} {}", book.len(), sum(2), sum(5))]).collect()
}
