use super::{first, Matroid};
use crate::frame::Frame;
use crate::refusal::Refusal;
use crate::settings::{refused, Refused, MOST};

/// The matroid below, with at most so many frames.
pub struct Truncation<M> {
    below: M,
    limit: u32,
}

impl<M: Matroid> Truncation<M> {
    pub fn new(below: M, limit: u32) -> Result<Self, Refused> {
        if limit > MOST {
            return Err(refused(Refusal::TooHigh, 0));
        }
        Ok(Truncation { below, limit })
    }
}

impl<M: Matroid> Matroid for Truncation<M> {
    fn independent(&self, frames: &[Frame], chosen: u64) -> bool {
        let count = (chosen & first(frames.len())).count_ones();
        count <= self.limit && self.below.independent(frames, chosen)
    }
}
