use crate::frame::Frame;
use crate::kept::Kept;
use crate::matroid::{first, Matroid};

/// Where a newcomer of some gain may stand.
pub enum Seat {
    /// Behind the kept ones.
    Next,
    /// In the lightest place that counts, of this gain.
    Lightest {
        place: usize,
        gain: u32,
    },
    Nowhere,
}

pub fn seat<M: Matroid>(kept: &mut Kept, size: usize, matroid: &M, newcomer: &Frame) -> Seat {
    let (frames, gains) = kept.with(newcomer);
    if gains.len() < size && matroid.independent(frames, first(frames.len())) {
        return Seat::Next;
    }
    match lightest(frames, gains, matroid) {
        Some(place) => Seat::Lightest {
            place,
            gain: gains[place],
        },
        None => Seat::Nowhere,
    }
}

/// The lightest place that counts, the lowest on a tie; only a lighter place is asked about.
fn lightest<M: Matroid>(frames: &[Frame], gains: &[u32], matroid: &M) -> Option<usize> {
    let all = first(frames.len());
    let mut best: Option<usize> = None;
    for (place, gain) in gains.iter().enumerate() {
        let lighter = best.is_none_or(|best| *gain < gains[best]);
        if lighter && matroid.independent(frames, all & !(1 << place)) {
            best = Some(place);
        }
    }
    best
}
