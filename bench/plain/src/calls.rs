use crate::frame::Frame;

const FRAME_BYTES: usize = 17;

pub enum Call<'a> {
    Clear,
    Counts,
    LookUp(u32),
    Offer(Frame),
    PrintOut(u32),
    Text(&'a [u8]),
}

/// The calls of a run, one after the other; `None` where the bytes are not a call.
pub struct Calls<'a>(pub &'a [u8]);

impl<'a> Calls<'a> {
    fn take<const N: usize>(&mut self) -> Option<&'a [u8; N]> {
        let (front, rest) = self.0.split_first_chunk()?;
        self.0 = rest;
        Some(front)
    }

    fn number(&mut self) -> Option<u32> {
        self.take().copied().map(u32::from_le_bytes)
    }

    fn text(&mut self) -> Option<&'a [u8]> {
        let length = self.number()? as usize;
        let (text, rest) = self.0.split_at_checked(length)?;
        self.0 = rest;
        Some(text)
    }

    #[inline]
    pub fn call(&mut self) -> Option<Call<'a>> {
        let [kind] = *self.take()?;
        match kind {
            1 => self.take().map(|bytes| Call::Offer(frame(bytes))),
            2 => self.text().map(Call::Text),
            3 => self.number().map(Call::LookUp),
            4 => Some(Call::Counts),
            5 => self.number().map(Call::PrintOut),
            6 => Some(Call::Clear),
            _ => None,
        }
    }
}

fn frame(bytes: &[u8; FRAME_BYTES]) -> Frame {
    let [a, b, c, d, m @ .., look, lane, tail, head, side] = *bytes;
    Frame {
        frame: u32::from_le_bytes([a, b, c, d]),
        marks: u64::from_le_bytes(m),
        look,
        lane,
        tail,
        head,
        side,
    }
}

/// How many bytes the answers take; `None` if the bytes are not calls.
pub fn due(calls: &[u8]) -> Option<u64> {
    let mut calls = Calls(calls);
    let mut due = 0;
    while !calls.0.is_empty() {
        due += match calls.call()? {
            Call::Offer(_) => 28,
            Call::Text(_) => 14,
            Call::LookUp(_) => 22,
            Call::Counts => 32,
            Call::PrintOut(room) => 5 + u64::from(room),
            Call::Clear => 0,
        };
    }
    Some(due)
}
