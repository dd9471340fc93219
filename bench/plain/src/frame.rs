/// The highest lane of a frame in range, and the highest side.
pub const LAST_LANE: u8 = 63;
pub const LAST_SIDE: u8 = 1;

#[derive(Clone, Copy, Debug, Default, PartialEq, Eq)]
pub struct Frame {
    pub marks: u64,
    pub frame: u32,
    pub look: u8,
    pub lane: u8,
    pub tail: u8,
    pub head: u8,
    pub side: u8,
}
