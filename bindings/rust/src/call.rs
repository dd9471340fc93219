use crate::frame::Frame;

/// A call of a run.
#[derive(Clone, Copy, Debug, PartialEq, Eq)]
pub enum Call<'a> {
    Offer(Frame),
    /// Records as text, at most 65,536 bytes.
    Text(&'a [u8]),
    /// The frame kept at a place.
    LookUp(u32),
    Counts,
    /// The digest, into so much room.
    PrintOut(u32),
    Clear,
}

impl Call<'_> {
    /// How many bytes the answer takes.
    fn due(&self) -> usize {
        match self {
            Call::Offer(_) => 28,
            Call::Text(_) => 14,
            Call::LookUp(_) => 22,
            Call::Counts => 32,
            Call::PrintOut(room) => 5 + *room as usize,
            Call::Clear => 0,
        }
    }

    /// Writes the call behind others. A text too long for its length to be told is cut to the
    /// greatest length, which the library refuses all the same.
    pub fn encode(&self, out: &mut Vec<u8>) {
        match self {
            Call::Offer(frame) => {
                out.push(1);
                frame.encode(out);
            }
            Call::Text(text) => {
                let length = u32::try_from(text.len()).unwrap_or(u32::MAX);
                out.push(2);
                out.extend(length.to_le_bytes());
                out.extend(&text[..length as usize]);
            }
            Call::LookUp(place) => number(3, *place, out),
            Call::Counts => out.push(4),
            Call::PrintOut(room) => number(5, *room, out),
            Call::Clear => out.push(6),
        }
    }
}

fn number(kind: u8, number: u32, out: &mut Vec<u8>) {
    out.push(kind);
    out.extend(number.to_le_bytes());
}

/// The calls as the library takes them.
pub fn encode(calls: &[Call]) -> Vec<u8> {
    let mut out = Vec::new();
    for call in calls {
        call.encode(&mut out);
    }
    out
}

/// How many bytes the answers take.
pub fn due(calls: &[Call]) -> usize {
    calls.iter().map(Call::due).sum()
}
