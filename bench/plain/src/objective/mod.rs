use crate::frame::Frame;

mod capped;
mod concave;
mod coverage;
mod facility;
mod sum;

pub use capped::Capped;
pub use concave::Concave;
pub use coverage::Coverage;
pub use facility::Facility;
pub use sum::Sum;

/// What a list of frames is worth, asked one frame at a time.
pub trait Objective {
    /// What the frame would add to the value of the frames added so far.
    fn gain(&self, frame: &Frame) -> u32;
    fn add(&mut self, frame: &Frame);
    /// Forgets the frames added.
    fn reset(&mut self);
}
