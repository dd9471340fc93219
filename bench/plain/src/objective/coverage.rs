use super::Objective;
use crate::frame::Frame;
use crate::settings::{at_most, of_length, Refused};

const HIGHEST_WEIGHT: u32 = 67_108_863;

/// The weights of the classes that any frame shows.
pub struct Coverage {
    weights: [u32; 64],
    covered: u64,
}

impl Coverage {
    pub fn new(weights: &[u32]) -> Result<Self, Refused> {
        let weights = of_length::<64>(weights)?;
        at_most(weights, HIGHEST_WEIGHT)?;
        Ok(Coverage {
            weights: *weights,
            covered: 0,
        })
    }
}

impl Objective for Coverage {
    fn gain(&self, frame: &Frame) -> u32 {
        let mut fresh = frame.marks & !self.covered;
        let mut gain = 0;
        while fresh != 0 {
            gain += self.weights[fresh.trailing_zeros() as usize];
            fresh &= fresh - 1;
        }
        gain
    }

    fn add(&mut self, frame: &Frame) {
        self.covered |= frame.marks;
    }

    fn reset(&mut self) {
        self.covered = 0;
    }
}
