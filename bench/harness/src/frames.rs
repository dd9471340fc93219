//! Random frames, alike enough to meet in lanes, classes and stations.

use fogetsu::Frame;

use crate::rng::Rng;

/// From how many of each thing the frames of a run are drawn.
pub struct Taste {
    lanes: u64,
    stations: u64,
    looks: u64,
    marks: u64,
}

impl Taste {
    pub fn new(rng: &mut Rng) -> Self {
        Taste {
            lanes: rng.pick(&[1, 2, 5, 16, 64, 64]),
            stations: rng.pick(&[2, 4, 9, 30, 256]),
            looks: rng.pick(&[1, 6, 256]),
            marks: rng.below(5),
        }
    }

    /// A frame in range.
    pub fn frame(&self, rng: &mut Rng) -> Frame {
        Frame {
            frame: rng.next() as u32 >> rng.below(32),
            marks: self.marks(rng),
            look: rng.below(self.looks) as u8,
            lane: rng.below(self.lanes) as u8,
            tail: rng.below(self.stations) as u8,
            head: rng.below(self.stations) as u8,
            side: rng.below(2) as u8,
        }
    }

    fn marks(&self, rng: &mut Rng) -> u64 {
        match self.marks {
            0 => 1 << rng.below(64),
            1 => 1 << rng.below(64) | 1 << rng.below(64),
            2 => rng.next() & rng.next() & rng.next(),
            3 => rng.pick(&[0, 1, u64::MAX, 1 << 63]),
            _ => rng.next(),
        }
    }

    /// A frame that is out of range now and then.
    pub fn offered(&self, rng: &mut Rng) -> Frame {
        let mut frame = self.frame(rng);
        if rng.once_in(30) {
            frame.lane = rng.pick(&[64, 65, 255]);
        }
        if rng.once_in(30) {
            frame.side = rng.pick(&[2, 3, 255]);
        }
        frame
    }
}
