//! The shift report picker in plain Rust, written from `docs/SPEC.md` alone. It shares no code with
//! the proved library: the harness holds the two against each other.

pub mod answers;
pub mod calls;
pub mod frame;
pub mod judge;
pub mod kept;
pub mod matroid;
pub mod objective;
pub mod picker;
pub mod piles;
pub mod printing;
pub mod reading;
pub mod refusal;
pub mod run;
pub mod settings;
pub mod text;
