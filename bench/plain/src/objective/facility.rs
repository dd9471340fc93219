use super::Objective;
use crate::frame::Frame;

const VIEWS: usize = 64;

/// The greatest likeness in each view.
pub struct Facility<'a> {
    table: &'a [u16],
    best: [u16; VIEWS],
}

impl<'a> Facility<'a> {
    pub fn new(table: &'a [u16]) -> Self {
        Facility {
            table,
            best: [0; VIEWS],
        }
    }

    /// The likenesses of a look, fewer than 64 where the table ends.
    fn row(&self, look: u8) -> &'a [u16] {
        let start = (VIEWS * look as usize).min(self.table.len());
        let end = (start + VIEWS).min(self.table.len());
        &self.table[start..end]
    }
}

impl Objective for Facility<'_> {
    fn gain(&self, frame: &Frame) -> u32 {
        let row = self.row(frame.look);
        row.iter()
            .zip(&self.best)
            .map(|(&likeness, &best)| u32::from(likeness.saturating_sub(best)))
            .sum()
    }

    fn add(&mut self, frame: &Frame) {
        let row = self.row(frame.look);
        for (best, &likeness) in self.best.iter_mut().zip(row) {
            *best = likeness.max(*best);
        }
    }

    fn reset(&mut self) {
        self.best = [0; VIEWS];
    }
}
