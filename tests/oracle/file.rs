//! Sweep files, written from the request's text: a reader and a writer of their own, and what the program over them must print.

use crate::{book, Answer, Sweep};

/// What a file holds: rays, gates, Nyquist's bits, splits, skip between rays, skip along a ray, centring, wrap; and for each gate its
/// velocity's bits, so that a NaN keeps its own, and its mask byte.
#[derive(Debug, Clone, PartialEq)]
pub struct Content {
    pub header: [u32; 8],
    pub bits: Vec<u32>,
    pub mask: Vec<u8>,
}

/// The contents of the next field, which must have this tag and length.
fn field<'a>(rest: &mut &'a [u8], tag: u8, length: usize) -> Result<&'a [u8], u32> {
    match **rest {
        [found, ..] if found != tag => Err(12),
        [_, high, low, ref after @ ..] if u16::from_be_bytes([high, low]) as usize == length && after.len() >= length => {
            let (contents, next) = after.split_at(length);
            *rest = next;
            Ok(contents)
        }
        _ => Err(11),
    }
}

fn two(from: &[u8], at: usize) -> u32 {
    u16::from_be_bytes([from[at], from[at + 1]]) as u32
}

fn four(from: &[u8], at: usize) -> u32 {
    two(from, at) << 16 | two(from, at + 2)
}

/// The header's eight numbers, with question 1 put to them.
fn header(rest: &mut &[u8]) -> Result<[u32; 8], u32> {
    let h = field(rest, 1, 15)?;
    let options = h[14] as u32;
    if options >= 4 {
        return Err(12);
    }
    let numbers = [two(h, 0), two(h, 2), four(h, 4), two(h, 8), two(h, 10), two(h, 12), options % 2, options / 2];
    let sized = Content { header: numbers, bits: Vec::new(), mask: Vec::new() };
    if sized.sweep().yes_1() { Ok(numbers) } else { Err(1) }
}

/// Rays and gates of a file's header; what follows is not looked at.
pub fn size(mut file: &[u8]) -> Result<[u32; 2], u32> {
    header(&mut file).map(|h| [h[0], h[1]])
}

/// The content of a file, read into so many velocities and mask bytes; or the number of the refusal.
pub fn read(mut file: &[u8], velocities: usize, mask: usize) -> Result<Content, u32> {
    let numbers = header(&mut file)?;
    let mut content = Content { header: numbers, bits: Vec::new(), mask: Vec::new() };
    for _ in 0..numbers[0] {
        for gate in field(&mut file, 2, 5 * numbers[1] as usize)?.chunks(5) {
            content.mask.push(gate[0]);
            content.bits.push(four(gate, 1));
        }
    }
    if !file.is_empty() {
        return Err(12);
    }
    match content.first_no(velocities == content.bits.len() && mask == content.mask.len()) {
        0 => Ok(content),
        number => Err(number),
    }
}

/// The file of a content, written into a buffer of so many bytes; or the number of the refusal.
pub fn write(content: &Content, buffer: usize) -> Result<Vec<u8>, u32> {
    let [rays, gates, nyquist, splits, between, along, centred, wrap] = content.header;
    let length = 18 + rays as u128 * (3 + 5 * gates as u128);
    let number = content.first_no(buffer as u128 == length);
    if number != 0 {
        return Err(number);
    }
    let mut file = vec![1, 0, 15];
    let short = |file: &mut Vec<u8>, number: u32| file.extend((number as u16).to_be_bytes());
    short(&mut file, rays);
    short(&mut file, gates);
    file.extend(nyquist.to_be_bytes());
    [splits, between, along].iter().for_each(|&number| short(&mut file, number));
    file.push((centred + 2 * wrap) as u8);
    for ray in 0..rays as usize {
        file.push(2);
        short(&mut file, 5 * gates);
        for gate in ray * gates as usize..(ray + 1) * gates as usize {
            file.push(content.mask[gate]);
            file.extend(content.bits[gate].to_be_bytes());
        }
    }
    Ok(file)
}

impl Content {
    pub fn new(s: &Sweep) -> Content {
        let header =
            [s.rays as u32, s.gates as u32, s.nyquist.to_bits(), s.splits, s.skip_between_rays, s.skip_along_ray, s.centred, s.wrap];
        Content { header, bits: s.velocities.iter().map(|v| v.to_bits()).collect(), mask: s.mask.clone() }
    }

    pub fn sweep(&self) -> Sweep {
        let [rays, gates, nyquist, splits, skip_between_rays, skip_along_ray, centred, wrap] = self.header;
        let velocities = self.bits.iter().map(|&b| f32::from_bits(b)).collect();
        let (rays, gates, nyquist, mask) = (rays as usize, gates as usize, f32::from_bits(nyquist), self.mask.clone());
        Sweep { rays, gates, nyquist, splits, skip_between_rays, skip_along_ray, centred, wrap, velocities, mask }
    }

    /// The first of questions 1 to 3 and 5 to 7 that gets a no, or 0; the second with what is the reader's or the writer's own.
    fn first_no(&self, own: bool) -> u32 {
        let s = self.sweep();
        let questions = [(1, s.yes_1()), (2, s.yes_2(own)), (3, s.yes_3()), (5, s.yes_5()), (6, s.yes_6()), (7, s.yes_7())];
        questions.iter().find(|(_, yes)| !yes).map_or(0, |(number, _)| *number)
    }
}

/// A file's sweep and the Rust's answer to it, all memory being as long as it asks; or the number of the refusal, the reader's or the sweep's.
pub fn accepted(file: &[u8]) -> Result<(Sweep, Answer), u32> {
    let [rays, gates] = size(file)?.map(|x| x as usize);
    let sweep = read(file, rays * gates, rays * gates)?.sweep();
    let answer = sweep.answer();
    if answer.number == 0 { Ok((sweep, answer)) } else { Err(answer.number) }
}

/// What a program over files prints, after the number of the refusal that it meets or 0: these lines of an accepted sweep. Of more than 128 gates
/// it reads no more than the header, and prints nothing.
fn printed(file: &[u8], lines: impl Fn(&Sweep, &Answer) -> Vec<String>) -> (u32, Vec<String>) {
    let [rays, gates] = size(file).unwrap_or([0, 0]).map(|x| x as usize);
    if rays * gates > 128 {
        return (0, Vec::new());
    }
    accepted(file).map_or_else(|number| (number, Vec::new()), |(s, a)| (0, lines(&s, &a)))
}

/// The printed counts, a line a ray.
pub fn unfolded(file: &[u8]) -> (u32, Vec<String>) {
    let ray = |counts: &[i32]| counts.iter().map(|c| c.to_string()).collect::<Vec<_>>().join(" ");
    printed(file, |s, a| (0..s.rays).map(|i| ray(&a.counts[i * s.gates..(i + 1) * s.gates])).collect())
}

/// The printed merge book.
pub fn booked(file: &[u8]) -> (u32, Vec<String>) {
    printed(file, |s, _| book::lines(&s.book(&s.trace())))
}

/// The files of a recorded list, each preceded by its length in two bytes.
pub fn files(mut list: &[u8]) -> Option<Vec<&[u8]>> {
    let mut files = Vec::new();
    while !list.is_empty() {
        let (length, rest) = (two(list.get(..2)?, 0) as usize, &list[2..]);
        files.push(rest.get(..length)?);
        list = &rest[length..];
    }
    Some(files)
}
