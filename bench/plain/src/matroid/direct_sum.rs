use super::{places, Matroid};
use crate::frame::Frame;

/// One matroid for the frames of side 0, another for the others.
pub struct DirectSum<A, B> {
    first: A,
    second: B,
}

impl<A: Matroid, B: Matroid> DirectSum<A, B> {
    pub fn new(first: A, second: B) -> Self {
        DirectSum { first, second }
    }
}

impl<A: Matroid, B: Matroid> Matroid for DirectSum<A, B> {
    fn independent(&self, frames: &[Frame], chosen: u64) -> bool {
        let zero = places(frames, chosen)
            .filter(|(_, frame)| frame.side == 0)
            .fold(0, |set, (place, _)| set | 1 << place);
        self.first.independent(frames, zero) && self.second.independent(frames, chosen & !zero)
    }
}
