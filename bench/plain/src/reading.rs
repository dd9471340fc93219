use crate::frame::Frame;
use crate::refusal::Refusal;

/// A record that cannot be read: why, in which of its lines, and at which byte of the text.
#[derive(Clone, Copy, Debug, PartialEq, Eq)]
pub struct RecordFault {
    pub refusal: Refusal,
    pub line: u8,
    pub byte: usize,
}

/// Reads one record at `start`, and answers it with the place behind it.
pub fn record(text: &[u8], start: usize) -> Result<(Frame, usize), RecordFault> {
    let mut lines = Lines {
        text,
        start,
        at: start,
        line: 0,
    };
    let frame = Frame {
        frame: lines.decimal(b"frame=", 10, u32::MAX)?,
        marks: lines.marks()?,
        look: lines.decimal(b"look=", 3, 255)? as u8,
        lane: lines.decimal(b"lane=", 2, 63)? as u8,
        tail: lines.decimal(b"tail=", 3, 255)? as u8,
        head: lines.decimal(b"head=", 3, 255)? as u8,
        side: lines.decimal(b"side=", 1, 1)? as u8,
    };
    Ok((frame, lines.at))
}

/// The lines of one record: the line being read is counted from 1.
struct Lines<'a> {
    text: &'a [u8],
    start: usize,
    at: usize,
    line: u8,
}

impl<'a> Lines<'a> {
    #[inline]
    fn decimal(&mut self, key: &[u8], longest: usize, highest: u32) -> Result<u32, RecordFault> {
        let (value, at) = self.value(key, longest)?;
        let number = decimal(value).ok_or(self.fault(Refusal::BadForm, at))?;
        if number > u64::from(highest) {
            return Err(self.fault(Refusal::TooHigh, at));
        }
        Ok(number as u32)
    }

    #[inline]
    fn marks(&mut self) -> Result<u64, RecordFault> {
        let (value, at) = self.value(b"marks=", 16)?;
        hexadecimal(value).ok_or(self.fault(Refusal::BadForm, at))
    }

    /// The bytes between the key and the line feed, and where they start. Goes behind the line.
    #[inline]
    fn value(&mut self, key: &[u8], longest: usize) -> Result<(&'a [u8], usize), RecordFault> {
        self.line += 1;
        let rest = &self.text[self.at..];
        if !rest.starts_with(key) {
            return Err(self.bad_key(rest, key));
        }
        let value_at = self.at + key.len();
        let rest = &self.text[value_at..];
        let reach = &rest[..rest.len().min(longest + 1)];
        match reach.iter().position(|&byte| byte == b'\n') {
            Some(length) => {
                self.at = value_at + length + 1;
                Ok((&reach[..length], value_at))
            }
            None if reach.len() <= longest => Err(self.fault(Refusal::Cut, self.start)),
            None => Err(self.fault(Refusal::BadForm, value_at)),
        }
    }

    #[cold]
    fn bad_key(&self, rest: &[u8], key: &[u8]) -> RecordFault {
        match rest.iter().zip(key).position(|(byte, due)| byte != due) {
            Some(differs) => self.fault(Refusal::WrongKey, self.at + differs),
            None => self.fault(Refusal::Cut, self.start),
        }
    }

    fn fault(&self, refusal: Refusal, byte: usize) -> RecordFault {
        RecordFault {
            refusal,
            line: self.line,
            byte,
        }
    }
}

/// Shortest decimal digits, at most ten of them.
#[inline]
fn decimal(digits: &[u8]) -> Option<u64> {
    match digits {
        [] | [b'0', _, ..] => None,
        _ => digits.iter().try_fold(0, |number, byte| match byte {
            b'0'..=b'9' => Some(10 * number + u64::from(byte - b'0')),
            _ => None,
        }),
    }
}

/// Sixteen lower-case hexadecimal digits.
#[inline]
fn hexadecimal(digits: &[u8]) -> Option<u64> {
    let digits: &[u8; 16] = digits.try_into().ok()?;
    digits.iter().try_fold(0, |number, byte| {
        let digit = match byte {
            b'0'..=b'9' => byte - b'0',
            b'a'..=b'f' => byte - b'a' + 10,
            _ => return None,
        };
        Some(number << 4 | u64::from(digit))
    })
}
