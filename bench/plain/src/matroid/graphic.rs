use super::{places, Matroid};
use crate::frame::Frame;

/// No cycle among the stations that the frames join.
pub struct Graphic;

/// Stations joined so far: each points to another of its group, or to itself.
struct Groups([u8; 256]);

impl Groups {
    fn new() -> Self {
        Groups(std::array::from_fn(|station| station as u8))
    }

    /// The station that stands for the group, with the way there halved.
    fn find(&mut self, mut station: u8) -> u8 {
        while self.0[station as usize] != station {
            let next = self.0[self.0[station as usize] as usize];
            self.0[station as usize] = next;
            station = next;
        }
        station
    }

    /// Whether the two were apart; they are joined afterwards.
    fn join(&mut self, tail: u8, head: u8) -> bool {
        let (tail, head) = (self.find(tail), self.find(head));
        self.0[tail as usize] = head;
        tail != head
    }
}

impl Matroid for Graphic {
    fn independent(&self, frames: &[Frame], chosen: u64) -> bool {
        let mut groups = Groups::new();
        places(frames, chosen).all(|(_, frame)| groups.join(frame.tail, frame.head))
    }
}
