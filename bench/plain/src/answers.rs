use crate::frame::Frame;
use crate::picker::Outcome;
use crate::refusal::Refusal;
use crate::text::Fault;

/// Answers written one behind the other.
pub struct Answers<'a> {
    pub out: &'a mut [u8],
    pub length: usize,
}

impl Answers<'_> {
    #[inline]
    pub fn put<const N: usize>(&mut self, bytes: [u8; N]) {
        self.room(N).copy_from_slice(&bytes);
    }

    #[inline]
    pub fn room(&mut self, length: usize) -> &mut [u8] {
        let start = self.length;
        self.length += length;
        &mut self.out[start..self.length]
    }

    pub fn frame(&mut self, frame: &Frame) {
        self.put(frame.frame.to_le_bytes());
        self.put(frame.marks.to_le_bytes());
        self.put([frame.look, frame.lane, frame.tail, frame.head, frame.side]);
    }

    #[inline]
    pub fn offer(&mut self, answer: Result<Outcome, Refusal>) {
        let (refusal, outcome, place, gain, lost_to, left) = match answer {
            Err(refusal) => (refusal as u8, 0, 0, 0, 0, None),
            Ok(Outcome::Empty) => (0, 0, 0, 0, 0, None),
            Ok(Outcome::Kept { place, gain }) => (0, 1, place, gain, 0, None),
            Ok(Outcome::Swapped { place, gain, left }) => (0, 2, place, gain, 0, Some(left)),
            Ok(Outcome::Light {
                place,
                gain,
                lost_to,
            }) => (0, 3, place, gain, lost_to, None),
            Ok(Outcome::Barred { gain }) => (0, 4, 0, gain, 0, None),
        };
        self.put([refusal, outcome, place as u8]);
        self.put(gain.to_le_bytes());
        self.put(lost_to.to_le_bytes());
        self.frame(&left.unwrap_or_default());
    }

    pub fn text(&mut self, answer: Result<u32, Fault>) {
        let (refusal, offered, record, line, byte) = match answer {
            Ok(offered) => (0, offered, 0, 0, 0),
            Err(fault) => (fault.refusal as u8, 0, fault.record, fault.line, fault.byte),
        };
        self.put([refusal]);
        self.put(offered.to_le_bytes());
        self.put(record.to_le_bytes());
        self.put([line]);
        self.put((byte as u32).to_le_bytes());
    }

    pub fn look_up(&mut self, answer: Option<(&Frame, u32)>) {
        let refusal = answer.map_or(Refusal::NoPlace as u8, |_| 0);
        let (frame, gain) = answer.map_or((Frame::default(), 0), |(frame, gain)| (*frame, gain));
        self.put([refusal]);
        self.put(gain.to_le_bytes());
        self.frame(&frame);
    }
}
