use std::fmt;

/// Why the library refused a call or a run. The numbers are the library's own.
#[derive(Clone, Copy, Debug, PartialEq, Eq)]
pub enum Refusal {
    BadCalls,
    BadForm,
    BadParent,
    Cut,
    LongText,
    Miscount,
    NoPlace,
    Over,
    Rising,
    ShiftFull,
    ShortAnswers,
    ShortSheet,
    Size,
    WrongKey,
}

/// The refusals in the order of their numbers, from 1.
const REFUSALS: [(Refusal, &str); 14] = [
    (Refusal::Size, "size"),
    (Refusal::ShiftFull, "shift full"),
    (Refusal::NoPlace, "no place"),
    (Refusal::ShortSheet, "short sheet"),
    (Refusal::WrongKey, "wrong key"),
    (Refusal::BadForm, "bad form"),
    (Refusal::Over, "over"),
    (Refusal::Cut, "cut"),
    (Refusal::LongText, "long text"),
    (Refusal::Miscount, "miscount"),
    (Refusal::Rising, "rising"),
    (Refusal::BadParent, "bad parent"),
    (Refusal::BadCalls, "bad calls"),
    (Refusal::ShortAnswers, "short answers"),
];

impl Refusal {
    /// The refusal of a number; `None` for 0, which is no refusal.
    ///
    /// # Panics
    ///
    /// For a number that the library does not have.
    pub(crate) fn of(number: u8) -> Option<Refusal> {
        let index = usize::from(number).checked_sub(1)?;
        Some(REFUSALS[index].0)
    }

    fn place(self) -> usize {
        let place = REFUSALS.iter().position(|(refusal, _)| *refusal == self);
        place.expect("each refusal stands in the table")
    }

    pub fn number(self) -> u8 {
        self.place() as u8 + 1
    }

    pub fn name(self) -> &'static str {
        REFUSALS[self.place()].1
    }
}

impl fmt::Display for Refusal {
    fn fmt(&self, out: &mut fmt::Formatter) -> fmt::Result {
        write!(out, "{} ({})", self.name(), self.number())
    }
}

impl std::error::Error for Refusal {}
