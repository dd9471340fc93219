//! The shift report picker, proved in Rattle, for Rust to call.
//!
//! A run is a size, a pile of objective and matroid with its settings, and a list of calls. Each
//! call has its answer:
//!
//! ```no_run
//! use fogetsu::{run, Answer, Call, CoveragePartition};
//!
//! let weights: Vec<u32> = (1..=64).collect();
//! let pile = CoveragePartition { weights: &weights, caps: &[1; 64] };
//! let text = std::fs::read("records").unwrap();
//! let answers = run(&pile, 2, &[Call::Text(&text), Call::PrintOut(8192)]).unwrap();
//! if let Answer::PrintOut(Ok(digest)) = &answers[1] {
//!     print!("{}", String::from_utf8_lossy(digest));
//! }
//! ```

mod answer;
mod bytes;
mod call;
mod frame;
mod pile;
mod raw;
mod refusal;
mod run;

pub use answer::{Answer, Counts, Fault, Offered};
pub use call::{due, encode, Call};
pub use frame::Frame;
pub use pile::{CappedFacilityLaminar, ConcaveGraphic, CoveragePartition, Pile};
pub use refusal::Refusal;
pub use run::{decode, run, NotRun};
