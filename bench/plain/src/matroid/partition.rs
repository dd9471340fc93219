use super::{places, Matroid};
use crate::frame::Frame;
use crate::settings::{caps, of_length, Refused};

/// A cap for each lane.
pub struct Partition {
    caps: [u8; 64],
}

impl Partition {
    pub fn new(numbers: &[u32]) -> Result<Self, Refused> {
        let caps = caps(of_length::<64>(numbers)?)?;
        Ok(Partition { caps })
    }
}

impl Matroid for Partition {
    fn independent(&self, frames: &[Frame], chosen: u64) -> bool {
        let mut left = self.caps;
        places(frames, chosen).all(|(_, frame)| match left.get_mut(frame.lane as usize) {
            Some(left) if *left > 0 => {
                *left -= 1;
                true
            }
            _ => false,
        })
    }
}
