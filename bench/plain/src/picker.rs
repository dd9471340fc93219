use crate::frame::{Frame, LAST_LANE, LAST_SIDE};
use crate::judge::{seat, Seat};
use crate::kept::{Kept, MOST_KEPT};
use crate::matroid::Matroid;
use crate::objective::Objective;
use crate::refusal::Refusal;

/// The most frames taken in between clears.
pub const SHIFT: u32 = 1_000_000;

#[derive(Clone, Copy, Debug, PartialEq, Eq)]
pub enum Outcome {
    Barred {
        gain: u32,
    },
    Empty,
    Kept {
        place: usize,
        gain: u32,
    },
    Light {
        place: usize,
        gain: u32,
        lost_to: u32,
    },
    Swapped {
        place: usize,
        gain: u32,
        left: Frame,
    },
}

#[derive(Clone, Copy, Debug, Default, PartialEq, Eq)]
pub struct Counts {
    pub gain: u64,
    pub told: u64,
    pub seen: u32,
    pub took: u32,
    pub kept: u32,
    pub size: u32,
}

pub struct Picker<O, M> {
    size: usize,
    objective: O,
    matroid: M,
    kept: Kept,
    took: u32,
    seen: u32,
    told: u64,
}

/// A size from 1 to 48.
pub fn size(number: u32) -> Result<usize, Refusal> {
    match number as usize {
        size @ 1..=MOST_KEPT => Ok(size),
        _ => Err(Refusal::Size),
    }
}

impl<O: Objective, M: Matroid> Picker<O, M> {
    pub fn open(size: usize, mut objective: O, matroid: M) -> Self {
        objective.reset();
        Picker {
            size,
            objective,
            matroid,
            kept: Kept::new(),
            took: 0,
            seen: 0,
            told: 0,
        }
    }

    pub fn offer(&mut self, frame: &Frame) -> Result<Outcome, Refusal> {
        if frame.lane > LAST_LANE || frame.side > LAST_SIDE {
            return Err(Refusal::TooHigh);
        }
        if self.seen == SHIFT {
            return Err(Refusal::ShiftFull);
        }
        self.seen += 1;
        let gain = self.objective.gain(frame);
        if gain == 0 {
            return Ok(Outcome::Empty);
        }
        Ok(self.judge(frame, gain))
    }

    fn judge(&mut self, frame: &Frame, gain: u32) -> Outcome {
        match seat(&mut self.kept, self.size, &self.matroid, frame) {
            Seat::Next => {
                let place = self.kept.count();
                self.kept.push(frame, gain);
                self.accept(frame, gain);
                Outcome::Kept { place, gain }
            }
            Seat::Lightest { place, gain: there } if u64::from(gain) >= 2 * u64::from(there) => {
                let left = self.kept.swap(place, frame, gain);
                self.accept(frame, gain);
                Outcome::Swapped { place, gain, left }
            }
            Seat::Lightest {
                place,
                gain: lost_to,
            } => Outcome::Light {
                place,
                gain,
                lost_to,
            },
            Seat::Nowhere => Outcome::Barred { gain },
        }
    }

    fn accept(&mut self, frame: &Frame, gain: u32) {
        self.objective.add(frame);
        self.took += 1;
        self.told += u64::from(gain);
    }

    pub fn kept(&self) -> &Kept {
        &self.kept
    }

    pub fn counts(&self) -> Counts {
        Counts {
            size: self.size as u32,
            kept: self.kept.count() as u32,
            took: self.took,
            seen: self.seen,
            gain: self.kept.gains().iter().copied().map(u64::from).sum(),
            told: self.told,
        }
    }

    pub fn clear(&mut self) {
        self.kept.clear();
        self.objective.reset();
        self.took = 0;
        self.seen = 0;
        self.told = 0;
    }
}
