use super::{places, Matroid};
use crate::frame::Frame;
use crate::refusal::Refusal;
use crate::settings::{caps, of_length, refused, Refused};

const BOXES: usize = 96;
const LANES: usize = 64;
const NONE: u8 = 255;

/// A cap for each box of a tree; the first 64 boxes are the lanes.
pub struct Laminar {
    caps: [u8; BOXES],
    parents: [u8; BOXES],
}

impl Laminar {
    pub fn new(numbers: &[u32], parents: &[u32]) -> Result<Self, Refused> {
        let numbers = of_length::<BOXES>(numbers)?;
        let parents = of_length::<BOXES>(parents)?;
        let caps = caps(numbers)?;
        for (index, &parent) in parents.iter().enumerate() {
            if !allowed(index, parent) {
                return Err(refused(Refusal::BadParent, index));
            }
        }
        Ok(Laminar {
            caps,
            parents: parents.map(|parent| parent as u8),
        })
    }
}

fn allowed(index: usize, parent: u32) -> bool {
    parent == u32::from(NONE)
        || ((LANES as u32)..(BOXES as u32)).contains(&parent) && parent as usize > index
}

impl Matroid for Laminar {
    fn independent(&self, frames: &[Frame], chosen: u64) -> bool {
        let mut left = self.caps;
        places(frames, chosen).all(|(_, frame)| {
            let mut here = frame.lane as usize;
            if here >= LANES {
                return false;
            }
            // No parent is past the boxes.
            while let Some(left) = left.get_mut(here) {
                if *left == 0 {
                    return false;
                }
                *left -= 1;
                here = self.parents[here] as usize;
            }
            true
        })
    }
}
