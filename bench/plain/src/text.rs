use crate::matroid::Matroid;
use crate::objective::Objective;
use crate::picker::Picker;
use crate::reading::record;
use crate::refusal::Refusal;

/// The longest text.
pub const LONGEST: usize = 65_536;

/// What stopped a text. The record and the line count from 1, and are 0 where none is at fault.
#[derive(Clone, Copy, Debug, PartialEq, Eq)]
pub struct Fault {
    pub refusal: Refusal,
    pub record: u32,
    pub line: u8,
    pub byte: usize,
}

impl<O: Objective, M: Matroid> Picker<O, M> {
    /// Offers the records of a text in turn, up to the first fault.
    pub fn offer_text(&mut self, text: &[u8]) -> Result<u32, Fault> {
        if text.len() > LONGEST {
            return Err(Fault {
                refusal: Refusal::LongText,
                record: 0,
                line: 0,
                byte: 0,
            });
        }
        let (mut offered, mut at) = (0, 0);
        while at < text.len() {
            let fault = |refusal, line, byte| Fault {
                refusal,
                record: offered + 1,
                line,
                byte,
            };
            let (frame, behind) = record(text, at).map_err(|f| fault(f.refusal, f.line, f.byte))?;
            self.offer(&frame)
                .map_err(|refusal| fault(refusal, 0, at))?;
            offered += 1;
            at = behind;
        }
        Ok(offered)
    }
}
