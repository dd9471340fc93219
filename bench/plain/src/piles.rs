use crate::calls::due;
use crate::matroid::{DirectSum, Graphic, Laminar, Matroid, Partition, Truncation};
use crate::objective::{Capped, Concave, Coverage, Facility, Objective, Sum};
use crate::picker::{self, Picker};
use crate::refusal::Refusal;
use crate::run::run;
use crate::settings::{refused, Refused};

/// Why a run was not carried out. The argument at fault counts from 1, 0 for none.
pub struct NotRun {
    refused: Refused,
    setting: u64,
}

/// How many bytes of answers stand at the front of the buffer.
pub type Ran = Result<u64, NotRun>;

/// A run's end in one number.
pub fn returned(ran: Ran) -> u64 {
    match ran {
        Ok(length) => 65536 * length,
        Err(NotRun { refused, setting }) => {
            refused.refusal as u64 + 256 * setting + 65536 * refused.index as u64
        }
    }
}

/// Says which argument is at fault.
trait At<T> {
    fn at(self, setting: u64) -> Result<T, NotRun>;
}

impl<T> At<T> for Result<T, Refused> {
    fn at(self, setting: u64) -> Result<T, NotRun> {
        self.map_err(|refused| NotRun { refused, setting })
    }
}

fn size(number: u32) -> Result<usize, NotRun> {
    picker::size(number)
        .map_err(|refusal| refused(refusal, 0))
        .at(1)
}

/// The calls of a run and the buffer for its answers.
pub struct Tape<'a> {
    pub calls: &'a [u8],
    pub answers: &'a mut [u8],
}

fn carry_out<O: Objective, M: Matroid>(size: usize, o: O, m: M, tape: Tape) -> Ran {
    let due = due(tape.calls).ok_or(refused(Refusal::BadCalls, 0)).at(0)?;
    if (tape.answers.len() as u64) < due {
        return Err(refused(Refusal::ShortAnswers, 0)).at(0);
    }
    run(&mut Picker::open(size, o, m), tape.calls, tape.answers);
    Ok(due)
}

/// Coverage over a partition matroid.
pub fn coverage_partition(number: u32, weights: &[u32], caps: &[u32], tape: Tape) -> Ran {
    let size = size(number)?;
    let objective = Coverage::new(weights).at(2)?;
    let matroid = Partition::new(caps).at(3)?;
    carry_out(size, objective, matroid, tape)
}

/// The settings of coverage under a cap with facility location, over a laminar matroid cut off at
/// `most`.
pub struct CappedFacilityLaminar<'a> {
    pub table: &'a [u16],
    pub weights: &'a [u32],
    pub cap: u32,
    pub caps: &'a [u32],
    pub parents: &'a [u32],
    pub most: u32,
}

pub fn capped_facility_laminar(number: u32, settings: &CappedFacilityLaminar, tape: Tape) -> Ran {
    let size = size(number)?;
    let capped = Capped::new(Coverage::new(settings.weights).at(2)?, settings.cap);
    let objective = Sum::new(capped, Facility::new(settings.table));
    let laminar = Laminar::new(settings.caps, settings.parents).at(6)?;
    let matroid = Truncation::new(laminar, settings.most).at(5)?;
    carry_out(size, objective, matroid, tape)
}

/// Concave counts with coverage, over graphic on side 0 and a partition matroid on side 1.
pub fn concave_graphic(
    number: u32,
    steps: &[u32],
    weights: &[u32],
    caps: &[u32],
    tape: Tape,
) -> Ran {
    let size = size(number)?;
    let concave = Concave::new(steps).at(2)?;
    let objective = Sum::new(concave, Coverage::new(weights).at(3)?);
    let matroid = DirectSum::new(Graphic, Partition::new(caps).at(4)?);
    carry_out(size, objective, matroid, tape)
}
