//! The tables of the comparison.

use crate::pile::NAMES;
use crate::tally::{Tally, OUTCOMES};

pub fn print(tally: &Tally) {
    println!("| compared | count |");
    println!("|---|---|");
    for (what, count) in [
        ("runs", tally.runs),
        ("runs refused whole", tally.not_run),
        ("calls", tally.calls),
        ("offers", tally.offers),
        ("records offered by texts", tally.records),
        ("bytes of answers", tally.bytes),
        ("differences", tally.differences),
    ] {
        println!("| {what} | {count} |");
    }
    outcomes(tally);
    println!("\n| refusal | by | count |\n|---|---|---|");
    for ((number, by), count) in &tally.refusals {
        println!("| {number} | {by} | {count} |");
    }
    settings(tally);
    println!("\n| fault | line | count |\n|---|---|---|");
    for ((number, line), count) in &tally.faults {
        println!("| {number} | {line} | {count} |");
    }
    println!("\nFault 7 on line 2 cannot be met: sixteen digits of marks are never over.");
}

fn outcomes(tally: &Tally) {
    println!("\n| outcome | {} |\n|---|---|---|---|", NAMES.join(" | "));
    for (outcome, name) in OUTCOMES.iter().enumerate() {
        let [a, b, c] = tally.outcomes.map(|of_pile| of_pile[outcome]);
        println!("| {name} | {a} | {b} | {c} |");
    }
}

fn settings(tally: &Tally) {
    println!("\n| run refused whole | argument | refusal | count |\n|---|---|---|---|");
    for ((pile, setting, refusal), count) in &tally.settings {
        println!("| {} | {setting} | {refusal} | {count} |", NAMES[*pile]);
    }
}
