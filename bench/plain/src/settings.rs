use crate::refusal::Refusal;

/// Refused settings: why, and at which index.
#[derive(Clone, Copy, Debug, PartialEq, Eq)]
pub struct Refused {
    pub refusal: Refusal,
    pub index: usize,
}

pub fn refused(refusal: Refusal, index: usize) -> Refused {
    Refused { refusal, index }
}

/// The numbers as a list of the stated length.
pub fn of_length<const N: usize>(numbers: &[u32]) -> Result<&[u32; N], Refused> {
    numbers
        .try_into()
        .map_err(|_| refused(Refusal::Miscount, 0))
}

/// The first number above the highest value is refused.
pub fn at_most(numbers: &[u32], highest: u32) -> Result<(), Refused> {
    match numbers.iter().position(|&n| n > highest) {
        Some(index) => Err(refused(Refusal::TooHigh, index)),
        None => Ok(()),
    }
}

/// The highest cap of a matroid, and the highest size.
pub const MOST: u32 = 48;

/// Caps of a matroid, as small numbers.
pub fn caps<const N: usize>(numbers: &[u32; N]) -> Result<[u8; N], Refused> {
    at_most(numbers, MOST)?;
    Ok(numbers.map(|n| n as u8))
}
