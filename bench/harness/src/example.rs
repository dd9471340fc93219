//! What the example in C is held against.

use std::io::{self, Write};

use fogetsu::{decode, due, encode, Answer, Call};

use crate::acts::ROOMY;
use crate::frames::Taste;
use crate::pile::Pile;
use crate::rng::Rng;
use crate::texts::{lines, LONGEST};

/// Prints a few thousand records.
pub fn records() {
    let mut rng = Rng::new(21);
    for _ in 0..100 {
        let taste = Taste::new(&mut rng);
        for _ in 0..50 {
            print!("{}", lines(&taste.frame(&mut rng)).concat());
        }
    }
}

/// Prints the digest of a file of whole records, by the plain implementation with the example's
/// settings.
pub fn digest(file: &str) {
    let bytes = std::fs::read(file).expect("the file can be read");
    let mut rest = &bytes[..];
    let mut calls = Vec::new();
    while !rest.is_empty() {
        let lines = rest.iter().enumerate().filter(|(_, &byte)| byte == b'\n');
        let ends = lines.skip(6).step_by(7).map(|(at, _)| at + 1);
        let end = ends.take_while(|&end| end <= LONGEST).last();
        let (text, behind) = rest.split_at(end.unwrap_or(rest.len()));
        calls.push(Call::Text(text));
        rest = behind;
    }
    calls.push(Call::PrintOut(ROOMY));
    let pile = Pile::CoveragePartition {
        weights: (1..=64).collect(),
        caps: vec![1; 64],
    };
    let mut answers = vec![0; due(&calls)];
    pile.plain(2, &encode(&calls), &mut answers);
    if let Some(Answer::PrintOut(Ok(digest))) = decode(&calls, &answers).last() {
        io::stdout()
            .write_all(digest)
            .expect("the digest is written");
    }
}
