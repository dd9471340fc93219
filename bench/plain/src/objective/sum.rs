use super::Objective;
use crate::frame::Frame;

/// Two objectives together, up to the greatest 32-bit number.
pub struct Sum<A, B> {
    first: A,
    second: B,
    left: u32,
}

impl<A: Objective, B: Objective> Sum<A, B> {
    pub fn new(mut first: A, mut second: B) -> Self {
        first.reset();
        second.reset();
        Sum {
            first,
            second,
            left: u32::MAX,
        }
    }
}

impl<A: Objective, B: Objective> Objective for Sum<A, B> {
    fn gain(&self, frame: &Frame) -> u32 {
        let both = self
            .first
            .gain(frame)
            .saturating_add(self.second.gain(frame));
        both.min(self.left)
    }

    fn add(&mut self, frame: &Frame) {
        self.left -= self.gain(frame);
        self.first.add(frame);
        self.second.add(frame);
    }

    fn reset(&mut self) {
        self.first.reset();
        self.second.reset();
        self.left = u32::MAX;
    }
}
