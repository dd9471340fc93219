//! A row of the table: the same runs by both sides.

use fogetsu::{due, encode, Call, Pile as _};

use crate::clock::took;
use crate::pile::Pile;

pub const REPETITIONS: usize = 11;

/// The bytes of an offer's answer: the refusal and the outcome stand first.
const OFFER_ANSWER: usize = 28;

/// Runs to be timed, the same for both sides, in all of so many units.
pub struct Row {
    pub name: String,
    pub note: String,
    units: usize,
    pile: Pile,
    size: u32,
    runs: Vec<Vec<u8>>,
    answers: Vec<u8>,
}

impl Row {
    pub fn new(name: String, pile: Pile, size: u32, calls: &[Call]) -> Self {
        Row {
            name,
            note: String::new(),
            units: calls.len(),
            pile,
            size,
            runs: vec![encode(calls)],
            answers: vec![0; due(calls)],
        }
    }

    /// The time is told of each of so many units, instead of each call.
    pub fn units(self, units: usize) -> Self {
        Row { units, ..self }
    }

    /// The calls cut into runs of this length.
    pub fn cut(self, calls: &[Call], length: usize) -> Self {
        let runs = calls.chunks(length).map(encode).collect();
        Row { runs, ..self }
    }

    pub fn note(self, note: impl Into<String>) -> Self {
        Row {
            note: note.into(),
            ..self
        }
    }

    /// Notes how many in a hundred of the answers, all to offers, are not that it was empty.
    pub fn note_gains(mut self) -> Self {
        self.by_plain();
        let offers = self.answers.chunks(OFFER_ANSWER);
        let empty = offers.filter(|answer| answer[..2] == [0, 0]).count();
        let share = 100.0 * (self.units - empty) as f64 / self.units as f64;
        self.note(format!("{share:.1} % have a gain"))
    }

    pub fn by_library(&mut self) {
        self.by(Pile::carry_out);
    }

    pub fn by_plain(&mut self) {
        self.by(Pile::plain);
    }

    /// The runs in turn, the answers of each behind those before.
    fn by(&mut self, side: impl Fn(&Pile, u32, &[u8], &mut [u8]) -> u64) {
        let mut answers = &mut self.answers[..];
        for calls in &self.runs {
            let returned = side(&self.pile, self.size, calls, answers);
            assert_eq!(returned & 0xff, 0, "the run is carried out");
            answers = &mut answers[(returned >> 16) as usize..];
        }
    }

    /// Nanoseconds of a unit, by the library and by plain Rust: both in turn, the first time not
    /// counted, the median of the others.
    pub fn time(&mut self) -> (f64, f64) {
        self.by_library();
        self.by_plain();
        let (mut library, mut plain) = (Vec::new(), Vec::new());
        for _ in 0..REPETITIONS {
            library.push(took(|| self.by_library()));
            plain.push(took(|| self.by_plain()));
        }
        (self.each(median(library)), self.each(median(plain)))
    }

    fn each(&self, time: i64) -> f64 {
        time as f64 / self.units as f64
    }
}

fn median(mut times: Vec<i64>) -> i64 {
    times.sort_unstable();
    times[times.len() / 2]
}
