//! Texts of records, whole and damaged.

use fogetsu::Frame;

use crate::frames::Taste;
use crate::rng::Rng;

pub const LONGEST: usize = 65_536;

/// The lines of a frame's record.
pub fn lines(frame: &Frame) -> [String; 7] {
    [
        format!("frame={}\n", frame.frame),
        format!("marks={:016x}\n", frame.marks),
        format!("look={}\n", frame.look),
        format!("lane={}\n", frame.lane),
        format!("tail={}\n", frame.tail),
        format!("head={}\n", frame.head),
        format!("side={}\n", frame.side),
    ]
}

/// Values that are of bad form, over, or just in range.
const VALUES: [&str; 32] = [
    "",
    "0",
    "00",
    "01",
    "1",
    "2",
    "9",
    "10",
    "63",
    "64",
    "99",
    "100",
    "255",
    "256",
    "999",
    "1000",
    "4294967295",
    "4294967296",
    "9999999999",
    "99999999999",
    "-1",
    "+1",
    " 1",
    "1 ",
    "1\r",
    "a",
    "0000000000000000",
    "000000000000000",
    "00000000000000000",
    "000000000000000A",
    "000000000000000g",
    "ffffffffffffffff",
];

fn damage_line(rng: &mut Rng, line: &mut Vec<u8>) {
    let key = line.iter().position(|&byte| byte == b'=').unwrap_or(0) + 1;
    match rng.below(8) {
        0 => line[rng.index(key)] = rng.byte(),
        1..=3 => {
            line.truncate(key);
            line.extend(rng.pick(&VALUES).as_bytes());
            line.push(b'\n');
        }
        4 => {
            line.pop();
        }
        5 => {
            let at = rng.index(line.len());
            line[at] ^= 1 << rng.below(8);
        }
        6 => {
            line.remove(rng.index(line.len()));
        }
        _ => line.insert(rng.index(line.len() + 1), rng.byte()),
    }
}

fn damage_lines(rng: &mut Rng, lines: &mut Vec<Vec<u8>>) {
    let at = rng.index(lines.len());
    match rng.below(10) {
        0 => drop(lines.remove(at)),
        1 => lines.insert(at, lines[at].clone()),
        2 => lines.swap(at, 0),
        _ => damage_line(rng, &mut lines[at]),
    }
}

/// A text of a few records, damaged as often as not.
fn short(rng: &mut Rng, taste: &Taste) -> Vec<u8> {
    let records = rng.below(20);
    let mut all: Vec<Vec<u8>> = (0..records)
        .flat_map(|_| lines(&taste.frame(rng)).map(String::into_bytes))
        .collect();
    if !all.is_empty() && rng.once_in(2) {
        damage_lines(rng, &mut all);
    }
    let mut text = all.concat();
    match rng.below(12) {
        0 => text.truncate(rng.index(text.len() + 1)),
        1 => text.push(rng.byte()),
        _ => {}
    }
    text
}

/// A text at the edge of what is taken.
fn long(rng: &mut Rng, taste: &Taste) -> Vec<u8> {
    let mut text = Vec::new();
    let mut whole = 0;
    while text.len() <= LONGEST {
        whole = text.len();
        text.extend(lines(&taste.frame(rng)).concat().into_bytes());
    }
    match rng.below(4) {
        0 => text.truncate(whole),
        1 => text.truncate(LONGEST),
        2 => text.truncate(LONGEST + 1),
        _ => {}
    }
    text
}

pub fn text(rng: &mut Rng, taste: &Taste) -> Vec<u8> {
    if rng.once_in(150) {
        long(rng, taste)
    } else {
        short(rng, taste)
    }
}

/// Records in texts as long as they may be, each of whole records.
pub struct Texts {
    bytes: Vec<u8>,
    ends: Vec<usize>,
}

impl Texts {
    pub fn new(frames: &[Frame]) -> Self {
        let (mut bytes, mut ends, mut start) = (Vec::new(), Vec::new(), 0);
        for frame in frames {
            let record = lines(frame).concat();
            if bytes.len() + record.len() - start > LONGEST {
                start = bytes.len();
                ends.push(start);
            }
            bytes.extend(record.into_bytes());
        }
        ends.push(bytes.len());
        Texts { bytes, ends }
    }

    pub fn iter(&self) -> impl Iterator<Item = &[u8]> {
        let starts = std::iter::once(0).chain(self.ends.iter().copied());
        starts
            .zip(&self.ends)
            .map(|(start, &end)| &self.bytes[start..end])
    }
}
