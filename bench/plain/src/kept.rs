use crate::frame::Frame;

/// The most frames that a picker keeps.
pub const MOST_KEPT: usize = 48;

/// The kept frames with their gains. The place behind them is free for a newcomer to stand in while
/// the matroid is asked.
pub struct Kept {
    frames: [Frame; MOST_KEPT + 1],
    gains: [u32; MOST_KEPT],
    count: usize,
}

impl Kept {
    pub fn new() -> Self {
        Kept {
            frames: [Frame::default(); MOST_KEPT + 1],
            gains: [0; MOST_KEPT],
            count: 0,
        }
    }

    pub fn count(&self) -> usize {
        self.count
    }

    pub fn gains(&self) -> &[u32] {
        &self.gains[..self.count]
    }

    pub fn get(&self, place: usize) -> Option<(&Frame, u32)> {
        let gain = *self.gains().get(place)?;
        Some((&self.frames[place], gain))
    }

    pub fn iter(&self) -> impl Iterator<Item = (&Frame, u32)> {
        self.frames.iter().zip(self.gains().iter().copied())
    }

    /// The kept frames with the newcomer behind them, and the kept gains.
    pub fn with(&mut self, newcomer: &Frame) -> (&[Frame], &[u32]) {
        self.frames[self.count] = *newcomer;
        (&self.frames[..=self.count], &self.gains[..self.count])
    }

    /// Keeps the frame in the next place.
    pub fn push(&mut self, frame: &Frame, gain: u32) {
        self.frames[self.count] = *frame;
        self.gains[self.count] = gain;
        self.count += 1;
    }

    /// Writes the frame into the place, and answers the one that leaves.
    pub fn swap(&mut self, place: usize, frame: &Frame, gain: u32) -> Frame {
        self.gains[place] = gain;
        std::mem::replace(&mut self.frames[place], *frame)
    }

    pub fn clear(&mut self) {
        self.count = 0;
    }
}

impl Default for Kept {
    fn default() -> Self {
        Self::new()
    }
}
