//! Sweep files: the proved reader, writer and size beside the oracle's own, on made sweeps and on damaged files. Compared are the answer
//! number, every byte and bit given, and all memory lent that must not change.
use crate::jivakkol::{jivakkol_read_sweep, jivakkol_sweep_size, jivakkol_write_sweep};
use radish_oracle::file::{self, Content};
use radish_oracle::make::{small, weather, Rng};

/// How many calls got each answer.
type Seen = [u64; 13];

fn words(r: &mut Rng, n: usize) -> Vec<u32> {
    (0..n).map(|_| r.next() as u32).collect()
}

fn bytes(r: &mut Rng, n: usize) -> Vec<u8> {
    (0..n).map(|_| r.next() as u8).collect()
}

/// A file in hexadecimal, as far as its first 400 bytes.
fn hex(file: &[u8]) -> String {
    file.iter().take(400).map(|b| format!("{b:02x}")).collect()
}

/// The number of an answer.
fn number_of<T>(answer: &Result<T, u32>) -> u32 {
    answer.as_ref().err().copied().unwrap_or(0)
}

/// The writer with a buffer of so many bytes: the file that it writes, or the number of its refusal.
fn write(r: &mut Rng, c: &Content, buffer: usize) -> Result<Result<Vec<u8>, u32>, String> {
    let mut out = bytes(r, buffer);
    let before = out.clone();
    let h = c.header;
    let number = unsafe {
        jivakkol_write_sweep(
            h[0], h[1], f32::from_bits(h[2]), h[3], h[4], h[5], h[6], h[7], c.bits.as_ptr(), c.bits.len(), c.mask.as_ptr(), c.mask.len(),
            out.as_mut_ptr(), out.len(),
        )
    };
    let expected = file::write(c, buffer);
    let fault = if number != number_of(&expected) {
        format!("answer {number}, expected {}", number_of(&expected))
    } else if out != *expected.as_ref().unwrap_or(&before) {
        format!("buffer {}, expected {}", hex(&out), hex(expected.as_ref().unwrap_or(&before)))
    } else {
        return Ok(expected);
    };
    let start = |n: usize| n.min(20);
    let (bits, mask) = (&c.bits[..start(c.bits.len())], &c.mask[..start(c.mask.len())]);
    let lengths = format!("{} velocities, {} mask bytes, {buffer} bytes", c.bits.len(), c.mask.len());
    Err(format!("writer: {fault}\nheader {h:x?}, {lengths}, first velocities {bits:x?}, mask {mask:?}"))
}

/// The reader with slices of so many velocities, mask bytes and header words: the content that it gives, or the number of its refusal.
fn read(r: &mut Rng, file: &[u8], velocities: usize, mask: usize, header: usize) -> Result<Result<Content, u32>, String> {
    let (mut bits, mut valid, mut numbers) = (words(r, velocities), bytes(r, mask), words(r, header));
    let before = (bits.clone(), valid.clone(), numbers.clone());
    let number = unsafe {
        jivakkol_read_sweep(
            file.as_ptr(), file.len(), bits.as_mut_ptr(), bits.len(), valid.as_mut_ptr(), valid.len(), numbers.as_mut_ptr(), numbers.len(),
        )
    };
    let expected = if header == 8 { file::read(file, velocities, mask) } else { Err(2) };
    let left = match &expected {
        Ok(c) => (c.bits.clone(), c.mask.clone(), c.header.to_vec()),
        Err(_) if header == 8 => (before.0, before.1, vec![0; 8]),
        Err(_) => before,
    };
    let fault = if number != number_of(&expected) {
        format!("answer {number}, expected {}", number_of(&expected))
    } else if numbers != left.2 {
        format!("answer {number}, header {numbers:x?}, expected {:x?}", left.2)
    } else if bits != left.0 || valid != left.1 {
        format!("answer {number}, velocities or mask")
    } else {
        return Ok(expected);
    };
    Err(format!("reader: {fault}\n{velocities} velocities, {mask} mask bytes, {header} header words, file {}", hex(file)))
}

/// The size entry with a slice of so many words: its answer.
fn size(r: &mut Rng, file: &[u8], length: usize) -> Result<u32, String> {
    let mut out = words(r, length);
    let before = out.clone();
    let number = unsafe { jivakkol_sweep_size(file.as_ptr(), file.len(), out.as_mut_ptr(), out.len()) };
    let expected = if length == 2 { file::size(file) } else { Err(2) };
    if number != number_of(&expected) || out != expected.map_or(before, |size| size.to_vec()) {
        return Err(format!("size: answer {number} and {out:?}, expected {expected:?}\n{length} words, file {}", hex(file)));
    }
    Ok(number)
}

/// How many answers of each number calls on files got: read with slices as long as the file asks, with others, and the size.
#[derive(Default)]
struct Tally {
    read: Seen,
    other: Seen,
    size: Seen,
}

impl Tally {
    /// All calls on a file. One that is accepted must be what the writer makes of its content.
    fn file(&mut self, r: &mut Rng, file: &[u8]) -> Result<(), String> {
        // What the header asks, where that is not much.
        let asked = file::size(file).map_or(0, |[rays, gates]| (rays * gates) as usize);
        let n = if asked <= 6000 { asked } else { r.below(9) as usize };
        let got = read(r, file, n, n, 8)?;
        self.read[number_of(&got) as usize] += 1;
        if let Ok(content) = got {
            if write(r, &content, file.len())?.as_deref() != Ok(file) {
                return Err(format!("writer: another file for the same sweep\n{}", hex(file)));
            }
        }
        let (less, more) = (n.saturating_sub(1), n + 1);
        let headers = [0, 7, 9].map(|header| (n, n, header));
        let others = [(less, n, 8), (more, n, 8), (n, less, 8), (n, more, 8), (less, less, 8), (more, more, 8), (more, less, 7)];
        for (velocities, mask, header) in headers.into_iter().chain(others) {
            self.other[number_of(&read(r, file, velocities, mask, header)?) as usize] += 1;
        }
        for length in 0..4 {
            self.size[size(r, file, length)? as usize] += 1;
        }
        Ok(())
    }
}

/// A sweep's content, with any bits at masked gates.
fn content(r: &mut Rng, s: &radish_oracle::Sweep) -> Content {
    let mut c = Content::new(s);
    for (b, m) in c.bits.iter_mut().zip(&c.mask) {
        if *m == 0 {
            *b = r.one_of(&[*b, 0x7F80_0001, 0xFFC0_0BAD, r.0 as u32, 0x7F80_0000 | (r.0 >> 40) as u32]);
        }
    }
    c
}

/// An accepted sweep of a size, every third gate masked.
fn plain(rays: usize, gates: usize) -> Content {
    let n = rays * gates;
    let bits = (0..n).map(|g| if g % 3 == 2 { 0x7FC0_0001 } else { [9f32, -9.0, 4.5, -10.0][g % 4].to_bits() }).collect();
    let mask = (0..n).map(|g| (g % 3 != 2) as u8).collect();
    Content { header: [rays as u32, gates as u32, 10f32.to_bits(), 3, 100, 100, 1, 1], bits, mask }
}

fn length(c: &Content) -> usize {
    18 + c.header[0] as usize * (3 + 5 * c.header[1] as usize)
}

/// The oracle's file of an accepted content.
fn filed(c: &Content) -> Vec<u8> {
    file::write(c, length(c)).unwrap()
}

/// Writes a content, and reads it back if it is accepted: the writer's answer.
fn there_and_back(r: &mut Rng, c: &Content) -> Result<u32, String> {
    let file = match write(r, c, length(c))? {
        Ok(file) => file,
        Err(number) => return Ok(number),
    };
    let n = c.bits.len();
    if read(r, &file, n, n, 8)?.as_ref() != Ok(c) {
        return Err(format!("reader: not the sweep that was written\n{}", hex(&file)));
    }
    size(r, &file, 2)
}

const NYQUISTS: [u32; 10] =
    [0x3E00_0000, 0x3DFF_FFFF, 0x4480_0000, 0x4480_0001, 0, 0x7FC0_0000, 0x7F80_0001, 0x7F80_0000, 0xC120_0000, 0x8000_0000];
const VELOCITIES: [u32; 9] =
    [0x4680_0000, 0x4680_0001, 0xC680_0000, 0xC680_0001, 0x7FC0_0000, 0xFFC0_0001, 0x7F80_0001, 0x7F80_0000, 0xFF80_0000];

/// One change to a writer's call, most often to what a question refuses; `more` is what the buffer has beyond the file.
fn off(r: &mut Rng, c: &mut Content, more: &mut i64) {
    match r.below(16) {
        0 => c.bits.push(0),
        1 => c.bits.truncate(c.bits.len().saturating_sub(1)),
        2 => c.mask.push(1),
        3 => c.mask.truncate(c.mask.len().saturating_sub(1)),
        4 => *more += r.one_of(&[-1, 1, -5, 5, 65536]),
        5 => c.header[0] = r.one_of(&[0, 1, 720, 721, 65536, 1 << 31, u32::MAX]),
        6 => c.header[1] = r.one_of(&[0, 1, 1200, 1201, 65536, 1 << 31, u32::MAX]),
        7 => c.header[2] = r.one_of(&NYQUISTS),
        8 => c.header[3] = r.one_of(&[0, 1, 9999, 10000, 65536, 65537, u32::MAX]),
        9 => c.header[4] = r.one_of(&[0, 1000, 1001, 65536, u32::MAX]),
        10 => c.header[5] = r.one_of(&[0, 1000, 1001, 65536, u32::MAX]),
        11 => c.header[6] = r.one_of(&[0, 1, 2, 256, u32::MAX]),
        12 => c.header[7] = r.one_of(&[0, 1, 2, 65536, u32::MAX]),
        13 | 14 => c.mask.iter_mut().rev().take(1).for_each(|m| *m = r.one_of(&[0, 1, 2, 3, 128, 255])),
        _ => c.bits.iter_mut().take(1).for_each(|b| *b = r.one_of(&VELOCITIES)),
    }
}

/// Writes bytes into a file from a place on, as far as it goes.
fn set(file: &mut [u8], at: usize, with: &[u8]) {
    file.iter_mut().skip(at).zip(with).for_each(|(place, b)| *place = *b);
}

/// One damage to a file whose rays are fields of `step` bytes.
fn damage(r: &mut Rng, file: &mut Vec<u8>, step: usize) {
    let length = file.len();
    let any = r.below(length as u64 + 1) as usize;
    // Where the field of that place starts, and its gate.
    let start = if any < 18 { 0 } else { 18 + (any - 18) / step * step };
    let gate = if any < 21 { 21 } else { start + 3 + (any - start).saturating_sub(3) / 5 * 5 };
    let end = length.min(if start == 0 { 18 } else { start + step });
    match r.below(16) {
        0 => set(file, any, &[r.next() as u8]),
        1 => file.iter_mut().skip(any).take(1).for_each(|b| *b ^= 1 << r.below(8)),
        2 => set(file, start, &[r.one_of(&[0, 1, 2, 3, 255])]),
        3 => set(file, start + 1, &[r.one_of(&[0, 1, 15, 255])]),
        4 => set(file, start + 2, &[r.one_of(&[0, 14, 15, 16, step as u8 - 2])]),
        5 => file.truncate(any),
        6 => file.truncate(start + r.below(4) as usize),
        7 => file.push(r.one_of(&[0, 1, 2, 255])),
        8 => drop(file.splice(start..start, file[start..end].to_vec())),
        9 => drop(file.drain(start..end)),
        10 => drop(file.drain(any..length.min(any + 1))),
        11 => file.insert(any, r.one_of(&[0, 1, 2, 255])),
        12 => {
            let (at, number) = r.one_of(&[
                (3, 0u16), (3, 1), (3, 720), (3, 721), (3, 65535), (5, 0), (5, 1), (5, 1200), (5, 1201), (5, 65535), (11, 0), (11, 9999),
                (11, 10000), (11, 65535), (13, 1000), (13, 1001), (15, 1000), (15, 1001),
            ]);
            set(file, at, &number.to_be_bytes());
        }
        13 => set(file, 7, &r.one_of(&NYQUISTS).to_be_bytes()),
        14 => set(file, 17, &[r.one_of(&[0, 1, 2, 3, 4, 7, 128, 255])]),
        _ => {
            set(file, gate, &[r.one_of(&[0, 1, 1, 2, 255])]);
            set(file, gate + 1, &r.one_of(&VELOCITIES).to_be_bytes());
        }
    }
}

/// Shapes of the files whose every byte is changed to every value.
const SMALL: [(usize, usize); 7] = [(0, 0), (1, 0), (2, 0), (1, 1), (2, 1), (1, 2), (2, 2)];

/// Rays and gates on both sides of the limits of question 1, the largest sweep last.
const SIZES: [(usize, usize); 16] = [
    (719, 0), (720, 0), (721, 0), (719, 3), (720, 3), (721, 3), (0, 1199), (0, 1200), (0, 1201), (3, 1199), (3, 1200), (3, 1201), (0, 2000),
    (3, 2000), (721, 1201), (720, 1200),
];

/// Made sweeps written and read back, and calls of the writer that are off.
fn written(r: &mut Rng, count: u64) -> Result<(), String> {
    let mut seen: Seen = [0; 13];
    for seed in 1..=count {
        let c = content(r, &small(seed, 10 + seed % 118));
        seen[there_and_back(r, &c)? as usize] += 1;
    }
    println!("files written: {count}, by answer {seen:?}; every accepted one read back");
    let mut offs: Seen = [0; 13];
    for seed in 1..=count {
        let (mut c, mut more) = (content(r, &small(seed, 12)), 0);
        for _ in 0..1 + r.below(3) {
            off(r, &mut c, &mut more);
        }
        // Where the size is past question 1, or not that of the gates, the buffer need not be as long.
        let fits = if c.header[0] <= 720 && c.header[1] <= 1200 { length(&c).min(1 << 17) } else { 18 };
        let answer = write(r, &c, (fits as i64 + more).max(0) as usize)?;
        offs[number_of(&answer) as usize] += 1;
    }
    println!("one to three changes to a call of the writer: {count}, by answer {offs:?}");
    Ok(())
}

/// Damaged files: small ones with each byte changed to each value, cut at every length, and with bytes after; made ones with two damages.
fn damaged(r: &mut Rng, count: u64) -> Result<(), String> {
    let (mut changed, mut ends, mut twice) = (Tally::default(), Tally::default(), Tally::default());
    for whole in SMALL.map(|(rays, gates)| filed(&plain(rays, gates))) {
        for (at, value) in (0..whole.len()).flat_map(|at| (0..=255).map(move |value| (at, value))) {
            let mut file = whole.clone();
            file[at] = value;
            changed.file(r, &file)?;
        }
        for left in 0..=whole.len() {
            ends.file(r, &whole[..left])?;
            ends.file(r, &[&whole, &whole[..left]].concat())?;
        }
        for value in 0..=255 {
            ends.file(r, &[value])?;
            ends.file(r, &[&whole[..], &[value]].concat())?;
            ends.file(r, &[&whole[..], &[2, 0, value]].concat())?;
        }
    }
    for seed in 1..=5 * count {
        let s = small(seed, 12);
        let c = content(r, &s);
        let mut file = file::write(&c, length(&c)).unwrap_or_else(|_| filed(&plain(s.rays, s.gates)));
        for _ in 0..2 {
            damage(r, &mut file, 3 + 5 * s.gates);
        }
        twice.file(r, &file)?;
    }
    println!("files with one byte changed: {}, by answer {:?}", changed.read.iter().sum::<u64>(), changed.read);
    println!("files cut, or with bytes after: {}, by answer {:?}", ends.read.iter().sum::<u64>(), ends.read);
    println!("files with two damages: {}, by answer {:?}", 5 * count, twice.read);
    let all = |pick: fn(&Tally) -> Seen| -> Seen { std::array::from_fn(|k| [&changed, &ends, &twice].iter().map(|t| pick(t)[k]).sum()) };
    println!("the same files read into slices of other lengths, by answer {:?}", all(|t| t.other));
    println!("their sizes, in 0 to 3 words, by answer {:?}", all(|t| t.size));
    Ok(())
}

/// Sweeps and files at the limits of question 1.
fn at_limits(r: &mut Rng) -> Result<(), String> {
    let (mut seen, mut tally): (Seen, Tally) = ([0; 13], Tally::default());
    for (rays, gates) in SIZES {
        let c = if rays * gates == 720 * 1200 { Content::new(&weather(7, rays, gates, 2.0)) } else { plain(rays, gates) };
        seen[there_and_back(r, &c)? as usize] += 1;
        // The file of a sweep as large as may be, but the header says this size.
        let mut file = filed(&plain(rays.min(720), gates.min(1200)));
        set(&mut file, 3, &(rays as u16).to_be_bytes());
        set(&mut file, 5, &(gates as u16).to_be_bytes());
        tally.file(r, &file)?;
    }
    println!("files at the limits of question 1: {}, by answer of the writer {seen:?}, of the reader {:?}", SIZES.len(), tally.read);
    Ok(())
}

pub fn run(count: u64) {
    let mut r = Rng(0x5DEE_CE66_D1CE_4E5B);
    if let Err(e) = written(&mut r, count).and_then(|_| damaged(&mut r, count)).and_then(|_| at_limits(&mut r)) {
        println!("DIFFERENT files, {e}");
        std::process::exit(1)
    }
}
