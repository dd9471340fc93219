//! What was met, and what should have been.

use std::collections::BTreeMap;

use fogetsu::{Answer, Call, Offered};

use crate::pile::NAMES;

#[derive(Default)]
pub struct Tally {
    pub runs: u64,
    pub not_run: u64,
    pub calls: u64,
    pub offers: u64,
    pub records: u64,
    pub bytes: u64,
    pub differences: u64,
    /// By pile and outcome.
    pub outcomes: [[u64; 5]; 3],
    /// By refusal and what refused it.
    pub refusals: BTreeMap<(u8, &'static str), u64>,
    /// Runs not carried out, by pile, argument at fault and refusal.
    pub settings: BTreeMap<(usize, u8, u8), u64>,
    /// Texts stopped, by refusal and line.
    pub faults: BTreeMap<(u8, u8), u64>,
}

pub const OUTCOMES: [&str; 5] = ["empty", "kept", "swapped", "light", "barred"];

fn outcome(offered: &Offered) -> usize {
    match offered {
        Offered::Empty => 0,
        Offered::Kept { .. } => 1,
        Offered::Swapped { .. } => 2,
        Offered::Light { .. } => 3,
        Offered::Barred { .. } => 4,
    }
}

impl Tally {
    fn refused(&mut self, number: u8, by: &'static str) {
        *self.refusals.entry((number, by)).or_default() += 1;
    }

    pub fn not_run(&mut self, pile: usize, returned: u64) {
        let [refusal, setting, ..] = returned.to_le_bytes();
        self.not_run += 1;
        self.refused(refusal, "run");
        *self.settings.entry((pile, setting, refusal)).or_default() += 1;
    }

    pub fn answers(&mut self, pile: usize, calls: &[Call], answers: &[Answer]) {
        self.calls += calls.len() as u64;
        for answer in answers {
            self.answer(pile, answer);
        }
    }

    fn answer(&mut self, pile: usize, answer: &Answer) {
        match answer {
            Answer::Offer(answer) => {
                self.offers += 1;
                match answer {
                    Ok(offered) => self.outcomes[pile][outcome(offered)] += 1,
                    Err(refusal) => self.refused(refusal.number(), "offer"),
                }
            }
            Answer::Text(Ok(offered)) => self.records += u64::from(*offered),
            Answer::Text(Err(fault)) => {
                self.records += u64::from(fault.record.saturating_sub(1));
                self.refused(fault.refusal.number(), "text");
                *self
                    .faults
                    .entry((fault.refusal.number(), fault.line))
                    .or_default() += 1;
            }
            Answer::LookUp(Err(refusal)) => self.refused(refusal.number(), "look-up"),
            Answer::PrintOut(Err(refusal)) => self.refused(refusal.number(), "print-out"),
            _ => {}
        }
    }

    /// What was not met and should have been.
    pub fn missing(&self) -> Vec<String> {
        let mut missing = Vec::new();
        for (pile, outcomes) in self.outcomes.iter().enumerate() {
            for (outcome, _) in outcomes.iter().enumerate().filter(|(_, &met)| met == 0) {
                missing.push(format!("{} of {}", OUTCOMES[outcome], NAMES[pile]));
            }
        }
        let refusals = REFUSALS
            .iter()
            .filter(|due| !self.refusals.contains_key(due));
        missing.extend(refusals.map(|(number, by)| format!("refusal {number} by {by}")));
        let settings = SETTINGS
            .iter()
            .filter(|due| !self.settings.contains_key(due));
        missing.extend(settings.map(|due| format!("pile, argument, refusal {due:?}")));
        let faults = faults_due().filter(|due| !self.faults.contains_key(due));
        missing.extend(faults.map(|(refusal, line)| format!("fault {refusal} on line {line}")));
        if self.offers < 1_000_000 {
            missing.push("a million offers".to_string());
        }
        missing
    }
}

const REFUSALS: [(u8, &str); 17] = [
    (1, "run"),
    (2, "offer"),
    (2, "text"),
    (3, "look-up"),
    (4, "print-out"),
    (5, "text"),
    (6, "text"),
    (7, "run"),
    (7, "offer"),
    (7, "text"),
    (8, "text"),
    (9, "text"),
    (10, "run"),
    (11, "run"),
    (12, "run"),
    (13, "run"),
    (14, "run"),
];

/// Pile, argument, refusal.
#[rustfmt::skip]
const SETTINGS: [(usize, u8, u8); 26] = [
    (0, 1, 1), (0, 2, 7), (0, 2, 10), (0, 3, 7), (0, 3, 10), (0, 0, 13), (0, 0, 14),
    (1, 1, 1), (1, 2, 7), (1, 2, 10), (1, 5, 7), (1, 6, 7), (1, 6, 10), (1, 6, 12), (1, 0, 13), (1, 0, 14),
    (2, 1, 1), (2, 2, 7), (2, 2, 10), (2, 2, 11), (2, 3, 7), (2, 3, 10), (2, 4, 7), (2, 4, 10), (2, 0, 13), (2, 0, 14),
];

/// Wrong key, bad form, over and cut on each line, but over on the marks: sixteen digits are never
/// over. Shift full and long text are at no line.
fn faults_due() -> impl Iterator<Item = (u8, u8)> {
    (5..=8)
        .flat_map(|refusal| (1..=7).map(move |line| (refusal, line)))
        .filter(|&due| due != (7, 2))
        .chain([(2, 0), (9, 0)])
}
