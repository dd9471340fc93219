use super::Objective;
use crate::frame::Frame;
use crate::refusal::Refusal;
use crate::settings::{of_length, refused, Refused};

const HIGHEST_STEP: u32 = 8_388_607;
const STEPS: usize = 8;

/// Steps by how many frames a lane has.
pub struct Concave {
    steps: [u32; 64 * STEPS],
    counts: [u8; 64],
}

impl Concave {
    pub fn new(steps: &[u32]) -> Result<Self, Refused> {
        let steps = of_length::<512>(steps)?;
        for (index, &step) in steps.iter().enumerate() {
            if step > HIGHEST_STEP {
                return Err(refused(Refusal::TooHigh, index));
            }
            if index % STEPS != 0 && step > steps[index - 1] {
                return Err(refused(Refusal::Rising, index));
            }
        }
        Ok(Concave {
            steps: *steps,
            counts: [0; 64],
        })
    }
}

impl Objective for Concave {
    fn gain(&self, frame: &Frame) -> u32 {
        let lane = frame.lane as usize;
        match self.counts.get(lane) {
            Some(&count) if (count as usize) < STEPS => self.steps[STEPS * lane + count as usize],
            _ => 0,
        }
    }

    fn add(&mut self, frame: &Frame) {
        if let Some(count) = self.counts.get_mut(frame.lane as usize) {
            *count = (*count + 1).min(STEPS as u8);
        }
    }

    fn reset(&mut self) {
        self.counts = [0; 64];
    }
}
