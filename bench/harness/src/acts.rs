//! Random lists of calls.

use fogetsu::{Answer, Call, Frame};

use crate::frames::Taste;
use crate::rng::Rng;
use crate::texts;

/// A call that holds its own text.
#[derive(Clone, Debug)]
pub enum Act {
    Offer(Frame),
    Text(Vec<u8>),
    LookUp(u32),
    Counts,
    PrintOut(u32),
    Clear,
}

impl Act {
    pub fn call(&self) -> Call<'_> {
        match self {
            Act::Offer(frame) => Call::Offer(*frame),
            Act::Text(text) => Call::Text(text),
            Act::LookUp(place) => Call::LookUp(*place),
            Act::Counts => Call::Counts,
            Act::PrintOut(room) => Call::PrintOut(*room),
            Act::Clear => Call::Clear,
        }
    }
}

/// Room for any digest.
pub const ROOMY: u32 = 6_000;

fn act(rng: &mut Rng, taste: &Taste) -> Act {
    match rng.below(100) {
        0..=69 => Act::Offer(taste.offered(rng)),
        70..=81 => Act::Text(texts::text(rng, taste)),
        82..=89 => Act::LookUp(rng.pick(&[0, 1, 2, 5, 23, 46, 47, 48, 49, u32::MAX])),
        90..=93 => Act::Counts,
        94..=98 => Act::PrintOut(ROOMY),
        _ => Act::Clear,
    }
}

pub fn acts(rng: &mut Rng) -> Vec<Act> {
    let taste = Taste::new(rng);
    let count = match rng.below(20) {
        0 => 0,
        1 => rng.index(1000),
        _ => rng.index(80),
    };
    (0..count).map(|_| act(rng, &taste)).collect()
}

/// Cuts the room of print-outs to the digest's length, about it, or to any other, once the lengths
/// are known from roomy ones.
pub fn refit(rng: &mut Rng, acts: &mut [Act], roomy: &[Answer]) {
    for (act, answer) in acts.iter_mut().zip(roomy) {
        if let (Act::PrintOut(room), Answer::PrintOut(Ok(digest))) = (act, answer) {
            let length = digest.len() as u32;
            *room = match rng.below(5) {
                0 => length,
                1 => length - 1,
                2 => length + 1,
                3 => rng.upto(ROOMY),
                _ => ROOMY,
            };
        }
    }
}
