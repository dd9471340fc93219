use crate::bytes::Bytes;
use crate::call::Call;
use crate::frame::Frame;
use crate::refusal::Refusal;

/// What became of an offered frame.
#[derive(Clone, Copy, Debug, PartialEq, Eq)]
pub enum Offered {
    Empty,
    Kept { place: u8, gain: u32 },
    Swapped { place: u8, gain: u32, left: Frame },
    Light { place: u8, gain: u32, lost_to: u32 },
    Barred { gain: u32 },
}

/// What stopped a text: the record and the line count from 1, the byte of the text from 0.
#[derive(Clone, Copy, Debug, PartialEq, Eq)]
pub struct Fault {
    pub refusal: Refusal,
    pub record: u32,
    pub line: u8,
    pub byte: u32,
}

#[derive(Clone, Copy, Debug, PartialEq, Eq)]
pub struct Counts {
    pub size: u32,
    /// Frames kept, accepted and taken in since the last clear.
    pub kept: u32,
    pub took: u32,
    pub seen: u32,
    /// The sums of the kept gains and of all accepted ones.
    pub told: u64,
    pub gain: u64,
}

/// The answer of a call, of the same name.
#[derive(Clone, Debug, PartialEq, Eq)]
pub enum Answer {
    Offer(Result<Offered, Refusal>),
    /// How many records were offered.
    Text(Result<u32, Fault>),
    /// The frame and its gain.
    LookUp(Result<(Frame, u32), Refusal>),
    Counts(Counts),
    /// The digest.
    PrintOut(Result<Vec<u8>, Refusal>),
    Clear,
}

impl Answer {
    pub(crate) fn decode(call: &Call, bytes: &mut Bytes) -> Answer {
        match call {
            Call::Offer(_) => Answer::Offer(offer(bytes)),
            Call::Text(_) => Answer::Text(text(bytes)),
            Call::LookUp(_) => Answer::LookUp(look_up(bytes)),
            Call::Counts => Answer::Counts(counts(bytes)),
            Call::PrintOut(room) => Answer::PrintOut(print_out(bytes, *room)),
            Call::Clear => Answer::Clear,
        }
    }
}

fn refused(bytes: &mut Bytes) -> Option<Refusal> {
    Refusal::of(bytes.u8())
}

fn unless<T>(refusal: Option<Refusal>, value: T) -> Result<T, Refusal> {
    refusal.map_or(Ok(value), Err)
}

fn offer(bytes: &mut Bytes) -> Result<Offered, Refusal> {
    let refusal = refused(bytes);
    let [outcome, place] = bytes.take();
    let (gain, lost_to) = (bytes.u32(), bytes.u32());
    let left = Frame::decode(bytes);
    let offered = match outcome {
        0 => Offered::Empty,
        1 => Offered::Kept { place, gain },
        2 => Offered::Swapped { place, gain, left },
        3 => Offered::Light {
            place,
            gain,
            lost_to,
        },
        4 => Offered::Barred { gain },
        _ => unreachable!("the library has five outcomes"),
    };
    unless(refusal, offered)
}

fn text(bytes: &mut Bytes) -> Result<u32, Fault> {
    let refusal = refused(bytes);
    let (offered, record) = (bytes.u32(), bytes.u32());
    let (line, byte) = (bytes.u8(), bytes.u32());
    match refusal {
        None => Ok(offered),
        Some(refusal) => Err(Fault {
            refusal,
            record,
            line,
            byte,
        }),
    }
}

fn look_up(bytes: &mut Bytes) -> Result<(Frame, u32), Refusal> {
    let refusal = refused(bytes);
    let gain = bytes.u32();
    unless(refusal, (Frame::decode(bytes), gain))
}

fn counts(bytes: &mut Bytes) -> Counts {
    Counts {
        size: bytes.u32(),
        kept: bytes.u32(),
        took: bytes.u32(),
        seen: bytes.u32(),
        gain: bytes.u64(),
        told: bytes.u64(),
    }
}

fn print_out(bytes: &mut Bytes, room: u32) -> Result<Vec<u8>, Refusal> {
    let refusal = refused(bytes);
    let length = bytes.u32() as usize;
    let sheet = bytes.slice(room as usize);
    unless(refusal, sheet[..length].to_vec())
}
