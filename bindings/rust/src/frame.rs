use crate::bytes::Bytes;

/// A frame's seven numbers.
#[derive(Clone, Copy, Debug, Default, PartialEq, Eq)]
pub struct Frame {
    /// The camera's number for it.
    pub frame: u32,
    /// Bit i says that class i shows.
    pub marks: u64,
    /// Its row in the table of likenesses.
    pub look: u8,
    /// The lane, at most 63.
    pub lane: u8,
    /// The two stations that it joins.
    pub tail: u8,
    pub head: u8,
    /// The arm of the line, at most 1.
    pub side: u8,
}

impl Frame {
    pub(crate) fn encode(&self, out: &mut Vec<u8>) {
        out.extend(self.frame.to_le_bytes());
        out.extend(self.marks.to_le_bytes());
        out.extend([self.look, self.lane, self.tail, self.head, self.side]);
    }

    pub(crate) fn decode(bytes: &mut Bytes) -> Frame {
        let frame = bytes.u32();
        let marks = bytes.u64();
        let [look, lane, tail, head, side] = bytes.take();
        Frame {
            frame,
            marks,
            look,
            lane,
            tail,
            head,
            side,
        }
    }
}
