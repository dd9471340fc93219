/// The refusals by their numbers.
#[derive(Clone, Copy, Debug, PartialEq, Eq)]
#[repr(u8)]
pub enum Refusal {
    Size = 1,
    ShiftFull = 2,
    NoPlace = 3,
    ShortSheet = 4,
    WrongKey = 5,
    BadForm = 6,
    TooHigh = 7,
    Cut = 8,
    LongText = 9,
    Miscount = 10,
    Rising = 11,
    BadParent = 12,
    BadCalls = 13,
    ShortAnswers = 14,
}
