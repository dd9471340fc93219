//! The library and the plain implementation on the same runs.

use fogetsu::{decode, due, encode, Answer, Call, NotRun, Pile as _};

use crate::acts::{acts, refit, Act};
use crate::pile::Pile;
use crate::rng::Rng;
use crate::settings;
use crate::tally::Tally;

/// Both sides on one run, in buffers filled alike. Answers what was returned, and the answers.
pub fn both(
    rng: &mut Rng,
    tally: &mut Tally,
    pile: &Pile,
    size: u32,
    calls: &[u8],
    room: usize,
) -> (u64, Vec<u8>) {
    let mut plain = vec![0; room];
    rng.fill(&mut plain);
    let mut library = plain.clone();
    let by_plain = pile.plain(size, calls, &mut plain);
    let by_library = pile.carry_out(size, calls, &mut library);
    tally.runs += 1;
    tally.bytes += room as u64;
    if by_plain != by_library || plain != library {
        tally.differences += 1;
        let at = plain.iter().zip(&library).position(|(a, b)| a != b);
        println!(
            "DIFFERENCE in run {}: returned {by_library:#x}, plain {by_plain:#x}; first byte {at:?} of {room}; size {size}, {}",
            tally.runs,
            crate::pile::NAMES[pile.index()]
        );
    }
    (by_plain, plain)
}

/// A run of whole calls, in a buffer as long as the answers or longer.
pub fn whole(
    rng: &mut Rng,
    tally: &mut Tally,
    pile: &Pile,
    size: u32,
    calls: &[Call],
) -> Option<Vec<Answer>> {
    let room = due(calls) + rng.index(20);
    let (returned, answers) = both(rng, tally, pile, size, &encode(calls), room);
    if returned & 0xff != 0 {
        tally.not_run(pile.index(), returned);
        typed_refusal(tally, pile, size, calls, returned);
        return None;
    }
    let answers = decode(calls, &answers);
    tally.answers(pile.index(), calls, &answers);
    Some(answers)
}

/// The same run once more through the typed wrapper.
fn typed(tally: &mut Tally, pile: &Pile, size: u32, calls: &[Call], answers: &[Answer]) {
    tally.runs += 1;
    if fogetsu::run(pile, size, calls).as_deref() != Ok(answers) {
        tally.differences += 1;
        println!(
            "DIFFERENCE in run {}: the wrapper answers something else",
            tally.runs
        );
    }
}

/// A refused run once more through the typed wrapper.
fn typed_refusal(tally: &mut Tally, pile: &Pile, size: u32, calls: &[Call], returned: u64) {
    tally.runs += 1;
    let number = |not_run: NotRun| {
        let NotRun {
            refusal,
            setting,
            index,
        } = not_run;
        u64::from(refusal.number()) | u64::from(setting) << 8 | index << 16
    };
    if fogetsu::run(pile, size, calls).map_err(number) != Err(returned) {
        tally.differences += 1;
        println!(
            "DIFFERENCE in run {}: the wrapper refuses otherwise",
            tally.runs
        );
    }
}

/// The same run in a buffer too short, or with a print-out more that no buffer has room for.
fn short(rng: &mut Rng, tally: &mut Tally, pile: &Pile, size: u32, calls: &[Call]) {
    let mut bytes = encode(calls);
    let mut room = due(calls);
    if room == 0 || rng.once_in(2) {
        Call::PrintOut(rng.pick(&[0, 1, u32::MAX])).encode(&mut bytes);
        room += rng.index(5);
    } else {
        room -= 1 + rng.index(room.min(40));
    }
    let (returned, _) = both(rng, tally, pile, size, &bytes, room);
    tally.not_run(pile.index(), returned);
}

/// The same run with its bytes damaged.
fn damaged(rng: &mut Rng, tally: &mut Tally, pile: &Pile, size: u32, calls: &[Call]) {
    let mut bytes = encode(calls);
    match rng.below(3) {
        0 => bytes.truncate(rng.index(bytes.len() + 1)),
        1 => bytes.push(rng.byte()),
        _ if !bytes.is_empty() => {
            let at = rng.index(bytes.len());
            bytes[at] = rng.byte();
        }
        _ => {}
    }
    let room = due(calls) + 300;
    let (returned, _) = both(rng, tally, pile, size, &bytes, room);
    if returned & 0xff != 0 {
        tally.not_run(pile.index(), returned);
    }
}

/// The answers by the plain implementation alone; `None` if the run is refused.
fn known(pile: &Pile, size: u32, calls: &[Call]) -> Option<Vec<Answer>> {
    let mut answers = vec![0; due(calls)];
    let returned = pile.plain(size, &encode(calls), &mut answers);
    (returned & 0xff == 0).then(|| decode(calls, &answers))
}

/// One random run, its print-outs cut close; now and then it is tried otherwise too.
pub fn random_run(rng: &mut Rng, tally: &mut Tally) {
    let (pile, size) = (settings::pile(rng), settings::size(rng));
    let mut acts = acts(rng);
    let calls: Vec<Call> = acts.iter().map(Act::call).collect();
    if let Some(roomy) = known(&pile, size, &calls) {
        refit(rng, &mut acts, &roomy);
    }
    let calls: Vec<Call> = acts.iter().map(Act::call).collect();
    if let Some(answers) = whole(rng, tally, &pile, size, &calls) {
        match rng.below(8) {
            0 => typed(tally, &pile, size, &calls, &answers),
            1 => short(rng, tally, &pile, size, &calls),
            2 | 3 => damaged(rng, tally, &pile, size, &calls),
            _ => {}
        }
    }
}
