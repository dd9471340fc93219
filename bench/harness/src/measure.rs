//! What each side takes, on the same calls, in nanoseconds.

use fogetsu::{Call, Frame};

use crate::acts::ROOMY;
use crate::lines::{frames, pile, Line};
use crate::pile::NAMES;
use crate::row::{Row, REPETITIONS};
use crate::texts::Texts;

const SHIFT: usize = 1_000_000;
const SIZES: [u32; 3] = [2, 24, 48];
const PRINT_OUTS: usize = 1000;

fn offers(frames: &[Frame]) -> Vec<Call<'static>> {
    frames.iter().copied().map(Call::Offer).collect()
}

fn reading(index: usize) -> Row {
    let texts = Texts::new(&frames(Line::Steady, SHIFT));
    let calls: Vec<Call> = texts.iter().map(Call::Text).collect();
    let pile = pile(index, Line::Steady, 48);
    Row::new(NAMES[index].to_string(), pile, 48, &calls)
        .units(SHIFT)
        .note(format!("size 48, {} texts", calls.len()))
}

fn offering(line: Line, index: usize, size: u32) -> Row {
    let count = match line {
        Line::Steady => SHIFT,
        Line::Changing => 50_000,
    };
    let calls = offers(&frames(line, count));
    let name = format!("{}, size {size}", NAMES[index]);
    Row::new(name, pile(index, line, size), size, &calls)
}

fn growth(length: usize) -> Row {
    let calls = offers(&frames(Line::Steady, SHIFT));
    let name = format!("shifts of {length}");
    Row::new(name, pile(0, Line::Steady, 48), 48, &calls)
        .cut(&calls, length)
        .note(format!("{}, size 48, steady", NAMES[0]))
}

fn printing() -> Row {
    let mut calls = offers(&frames(Line::Changing, 1000));
    calls.extend([Call::PrintOut(ROOMY); PRINT_OUTS]);
    Row::new(
        "digest".to_string(),
        pile(0, Line::Changing, 48),
        48,
        &calls,
    )
    .units(PRINT_OUTS)
    .note(format!("room {ROOMY}"))
}

fn table(unit: &str, rows: impl Iterator<Item = Row>) {
    println!("| {unit} | library ns | plain ns | ratio | note |");
    println!("|---|---|---|---|---|");
    for mut row in rows {
        let (library, plain) = row.time();
        let ratio = library / plain;
        let (name, note) = (row.name, row.note);
        println!("| {name} | {library:.1} | {plain:.1} | {ratio:.2} | {note} |");
    }
    println!();
}

fn of_every_size(line: Line) -> impl Iterator<Item = Row> {
    (0..3).flat_map(move |index| SIZES.map(|size| offering(line, index, size).note_gains()))
}

pub fn measure() {
    println!(
        "Processor time of one thread, both sides in turn, warm, the median of {REPETITIONS}."
    );
    println!("The answers' buffer is not cleared between the runs.\n");
    table(
        "a record read and offered, of a million in texts of 64 KiB",
        (0..3).map(reading),
    );
    table(
        "an offer on a steady line, of a million",
        of_every_size(Line::Steady),
    );
    table(
        "an offer on a changing line, of 50,000",
        of_every_size(Line::Changing),
    );
    table(
        "an offer of a million, cut into shifts",
        [10_000, 100_000, SHIFT].into_iter().map(growth),
    );
    table(
        "a print-out of 48 kept frames",
        std::iter::once_with(printing),
    );
}

/// One row by each side, once, for an instruction count.
pub fn profile(what: &str, index: usize, size: u32) {
    let mut row = match what {
        "read" => reading(index),
        "steady" => offering(Line::Steady, index, size),
        "changing" => offering(Line::Changing, index, size),
        _ => printing(),
    };
    row.by_library();
    row.by_plain();
}
