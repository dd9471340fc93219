use super::Objective;
use crate::frame::Frame;

/// The objective below, up to a cap.
pub struct Capped<O> {
    below: O,
    cap: u32,
    left: u32,
}

impl<O: Objective> Capped<O> {
    pub fn new(mut below: O, cap: u32) -> Self {
        below.reset();
        Capped {
            below,
            cap,
            left: cap,
        }
    }
}

impl<O: Objective> Objective for Capped<O> {
    fn gain(&self, frame: &Frame) -> u32 {
        self.below.gain(frame).min(self.left)
    }

    fn add(&mut self, frame: &Frame) {
        self.left -= self.gain(frame);
        self.below.add(frame);
    }

    fn reset(&mut self) {
        self.below.reset();
        self.left = self.cap;
    }
}
