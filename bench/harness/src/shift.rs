//! Runs that fill a shift, by offers and by texts.

use fogetsu::{Call, Frame};

use crate::acts::ROOMY;
use crate::compare::whole;
use crate::frames::Taste;
use crate::lines::{pile, Line};
use crate::rng::Rng;
use crate::tally::Tally;
use crate::texts::{lines, Texts};

const SHIFT: usize = 1_000_000;

/// Calls that go over the end of a shift with three frames left to take in, clear, and begin again.
/// The text has four records.
fn over_the_end<'a>(frame: Frame, text: &'a [u8]) -> Vec<Call<'a>> {
    let cut = &text[..text.len() - 1];
    let off_lane = Frame { lane: 64, ..frame };
    let mut calls = vec![Call::Counts, Call::Text(text), Call::Counts];
    calls.extend([Call::Text(text), Call::Text(cut), Call::Text(&cut[..9])]);
    calls.extend([frame, off_lane].map(Call::Offer));
    calls.extend([Call::Counts, Call::PrintOut(ROOMY), Call::LookUp(0)]);
    calls.extend([Call::Clear, Call::Offer(frame), Call::Text(text)]);
    calls.extend([Call::Counts, Call::PrintOut(ROOMY)]);
    calls
}

/// A shift filled half by offers and half by texts, and gone over by each.
fn filled(rng: &mut Rng, tally: &mut Tally, index: usize) {
    let (pile, size) = (pile(index, Line::Changing, 2), 2);
    let taste = Taste::new(rng);
    let mut frames = |count| -> Vec<Frame> { (0..count).map(|_| taste.frame(rng)).collect() };
    let mut calls: Vec<Call> = frames(SHIFT / 2).into_iter().map(Call::Offer).collect();
    let texts = Texts::new(&frames(SHIFT / 2 - 3));
    calls.extend(texts.iter().map(Call::Text));
    let last = frames(4);
    let text: Vec<u8> = last
        .iter()
        .flat_map(|frame| lines(frame).concat().into_bytes())
        .collect();
    calls.extend(over_the_end(last[0], &text));
    whole(rng, tally, &pile, size, &calls);
}

pub fn full_shifts(rng: &mut Rng, tally: &mut Tally) {
    for index in 0..3 {
        filled(rng, tally, index);
    }
}
