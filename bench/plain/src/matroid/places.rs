use crate::frame::Frame;

/// The set of the first `count` places.
pub fn first(count: usize) -> u64 {
    if count < 64 {
        (1 << count) - 1
    } else {
        u64::MAX
    }
}

/// The places of a set, from the lowest up.
struct Places(u64);

impl Iterator for Places {
    type Item = usize;

    fn next(&mut self) -> Option<usize> {
        if self.0 == 0 {
            return None;
        }
        let place = self.0.trailing_zeros() as usize;
        self.0 &= self.0 - 1;
        Some(place)
    }
}

/// The chosen places of the list with their frames; a bit past the end chooses nothing.
pub fn places(frames: &[Frame], chosen: u64) -> impl Iterator<Item = (usize, &Frame)> {
    Places(chosen & first(frames.len())).map(|place| (place, &frames[place]))
}
