use std::fmt;

use crate::answer::Answer;
use crate::bytes::Bytes;
use crate::call::{due, encode, Call};
use crate::pile::Pile;
use crate::refusal::Refusal;

/// Why a run was not carried out: nothing of it was.
#[derive(Clone, Copy, Debug, PartialEq, Eq)]
pub struct NotRun {
    pub refusal: Refusal,
    /// The argument at fault, counted from 1 in the order of the linked call; 0 for none.
    pub setting: u8,
    /// The index in that argument.
    pub index: u64,
}

impl NotRun {
    /// The refusal in a returned number, if it has one.
    fn of(returned: u64) -> Option<NotRun> {
        let [refusal, setting, ..] = returned.to_le_bytes();
        Some(NotRun {
            refusal: Refusal::of(refusal)?,
            setting,
            index: returned >> 16,
        })
    }
}

impl fmt::Display for NotRun {
    fn fmt(&self, out: &mut fmt::Formatter) -> fmt::Result {
        write!(
            out,
            "{} in argument {}, index {}",
            self.refusal, self.setting, self.index
        )
    }
}

impl std::error::Error for NotRun {}

/// Opens a picker of the size over the pile, carries out the calls in turn and answers each.
pub fn run(pile: &impl Pile, size: u32, calls: &[Call]) -> Result<Vec<Answer>, NotRun> {
    let mut answers = vec![0; due(calls)];
    let returned = pile.carry_out(size, &encode(calls), &mut answers);
    if let Some(not_run) = NotRun::of(returned) {
        return Err(not_run);
    }
    Ok(decode(calls, &answers))
}

/// The answers of calls that were carried out.
///
/// # Panics
///
/// If the bytes are not those that the library writes for the calls.
pub fn decode(calls: &[Call], answers: &[u8]) -> Vec<Answer> {
    let mut bytes = Bytes(answers);
    let answer = |call| Answer::decode(call, &mut bytes);
    calls.iter().map(answer).collect()
}
