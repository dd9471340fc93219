use crate::answers::Answers;
use crate::calls::{Call, Calls};
use crate::matroid::Matroid;
use crate::objective::Objective;
use crate::picker::Picker;

/// Carries out the calls, which are known to be whole, into answers known to be long enough.
pub fn run<O: Objective, M: Matroid>(picker: &mut Picker<O, M>, calls: &[u8], out: &mut [u8]) {
    let mut calls = Calls(calls);
    let mut answers = Answers { out, length: 0 };
    while let Some(call) = calls.call() {
        match call {
            Call::Offer(frame) => answers.offer(picker.offer(&frame)),
            Call::Text(text) => answers.text(picker.offer_text(text)),
            Call::LookUp(place) => answers.look_up(picker.kept().get(place as usize)),
            Call::Counts => counts(picker, &mut answers),
            Call::PrintOut(room) => print_out(picker, &mut answers, room as usize),
            Call::Clear => picker.clear(),
        }
    }
}

fn counts<O: Objective, M: Matroid>(picker: &Picker<O, M>, answers: &mut Answers) {
    let counts = picker.counts();
    for number in [counts.size, counts.kept, counts.took, counts.seen] {
        answers.put(number.to_le_bytes());
    }
    for number in [counts.gain, counts.told] {
        answers.put(number.to_le_bytes());
    }
}

fn print_out<O: Objective, M: Matroid>(picker: &Picker<O, M>, answers: &mut Answers, room: usize) {
    let (head, sheet) = answers.room(5 + room).split_at_mut(5);
    let (refusal, length) = match picker.print(sheet) {
        Ok(length) => (0, length),
        Err(refusal) => (refusal as u8, 0),
    };
    head[0] = refusal;
    head[1..].copy_from_slice(&(length as u32).to_le_bytes());
}
