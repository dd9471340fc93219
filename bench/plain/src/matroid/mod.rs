use crate::frame::Frame;

mod direct_sum;
mod graphic;
mod laminar;
mod partition;
mod places;
mod truncation;

pub use direct_sum::DirectSum;
pub use graphic::Graphic;
pub use laminar::Laminar;
pub use partition::Partition;
pub use places::{first, places};
pub use truncation::Truncation;

/// Which frames may stand together.
pub trait Matroid {
    /// Whether the frames at the chosen places are independent. Bit i chooses place i.
    fn independent(&self, frames: &[Frame], chosen: u64) -> bool;
}
