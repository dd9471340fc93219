//! Random settings, most of them good.

use crate::pile::Pile;
use crate::rng::Rng;

const HIGHEST_WEIGHT: u32 = 67_108_863;
const HIGHEST_STEP: u32 = 8_388_607;

/// A number up to the highest, of any magnitude.
fn magnitude(rng: &mut Rng, highest: u32) -> u32 {
    match rng.below(8) {
        0 => 0,
        1 => highest,
        _ => (rng.next() as u32 >> rng.below(32)).min(highest),
    }
}

fn weights(rng: &mut Rng) -> Vec<u32> {
    let highest = rng.pick(&[3, 100, 65_535, HIGHEST_WEIGHT, HIGHEST_WEIGHT]);
    if rng.once_in(10) {
        return vec![highest; 64];
    }
    (0..64).map(|_| magnitude(rng, highest)).collect()
}

fn caps(rng: &mut Rng, count: usize) -> Vec<u32> {
    let highest = rng.pick(&[1, 2, 5, 48]);
    (0..count).map(|_| rng.upto(highest)).collect()
}

fn steps(rng: &mut Rng) -> Vec<u32> {
    let highest = rng.pick(&[2, 1000, HIGHEST_STEP]);
    let mut steps: Vec<u32> = (0..512).map(|_| magnitude(rng, highest)).collect();
    for lane in steps.chunks_mut(8) {
        lane.sort_unstable_by(|a, b| b.cmp(a));
    }
    steps
}

/// A table that may end in the middle of a row.
fn table(rng: &mut Rng) -> Vec<u16> {
    let length = match rng.below(4) {
        0 => 0,
        1 => rng.index(64 * 8),
        _ => rng.index(64 * 260),
    };
    let highest = rng.pick(&[1, 300, 65_535]);
    (0..length)
        .map(|_| magnitude(rng, highest) as u16)
        .collect()
}

fn parents(rng: &mut Rng) -> Vec<u32> {
    let parent = |index: u64| {
        let lowest = (index + 1).max(64);
        match rng.below(3) {
            0 => 255,
            _ if lowest > 95 => 255,
            _ => (lowest + rng.below(96 - lowest)) as u32,
        }
    };
    (0..96).map(parent).collect()
}

/// Spoils a list: too short, too long, or a number made to be at fault.
fn spoil(rng: &mut Rng, list: &mut Vec<u32>, over: u32) {
    match rng.below(4) {
        0 => list.truncate(rng.index(list.len())),
        1 => list.resize(list.len() + 1 + rng.index(3), 0),
        _ => {
            let index = rng.index(list.len());
            list[index] = rng.pick(&[over, over, over + 1, u32::MAX]);
        }
    }
}

fn raise_a_step(rng: &mut Rng, steps: &mut [u32]) {
    let index = rng.index(steps.len());
    if !index.is_multiple_of(8) && steps[index - 1] < HIGHEST_STEP {
        steps[index] = steps[index - 1] + 1;
    }
}

/// Gives a box a parent about its own number, or about the ends of what is allowed.
fn misplace(rng: &mut Rng, parents: &mut [u32]) {
    let index = rng.index(parents.len());
    let own = index as u32;
    parents[index] = rng.pick(&[own, own, own + 1, 0, 63, 64, 95, 96, 254, 256]);
}

fn coverage_partition(rng: &mut Rng, bad: bool) -> Pile {
    let (mut weights, mut caps) = (weights(rng), caps(rng, 64));
    if bad && rng.once_in(2) {
        spoil(rng, &mut weights, HIGHEST_WEIGHT + 1);
    }
    if bad && rng.once_in(2) {
        spoil(rng, &mut caps, 49);
    }
    Pile::CoveragePartition { weights, caps }
}

fn capped_facility_laminar(rng: &mut Rng, bad: bool) -> Pile {
    let mut weights = weights(rng);
    let (mut caps, mut parents) = (caps(rng, 96), parents(rng));
    let mut most = rng.pick(&[0, 1, 2, 10, 47, 48, 48, 48]);
    if bad && rng.once_in(4) {
        spoil(rng, &mut weights, HIGHEST_WEIGHT + 1);
    }
    if bad && rng.once_in(3) {
        spoil(rng, &mut caps, 49);
    }
    if bad && rng.once_in(2) {
        misplace(rng, &mut parents);
    }
    if bad && rng.once_in(4) {
        spoil(rng, &mut parents, 256);
    }
    if bad && rng.once_in(2) {
        most = rng.pick(&[49, 50, 256, u32::MAX]);
    }
    Pile::CappedFacilityLaminar {
        weights,
        cap: magnitude(rng, u32::MAX),
        table: table(rng),
        most,
        caps,
        parents,
    }
}

fn concave_graphic(rng: &mut Rng, bad: bool) -> Pile {
    let (mut steps, mut weights, mut caps) = (steps(rng), weights(rng), caps(rng, 64));
    if bad && rng.once_in(3) {
        raise_a_step(rng, &mut steps);
    }
    if bad && rng.once_in(3) {
        spoil(rng, &mut steps, HIGHEST_STEP + 1);
    }
    if bad && rng.once_in(3) {
        spoil(rng, &mut weights, HIGHEST_WEIGHT + 1);
    }
    if bad && rng.once_in(2) {
        spoil(rng, &mut caps, 49);
    }
    Pile::ConcaveGraphic {
        steps,
        weights,
        caps,
    }
}

pub fn pile(rng: &mut Rng) -> Pile {
    let bad = rng.once_in(8);
    match rng.below(3) {
        0 => coverage_partition(rng, bad),
        1 => capped_facility_laminar(rng, bad),
        _ => concave_graphic(rng, bad),
    }
}

pub fn size(rng: &mut Rng) -> u32 {
    match rng.below(20) {
        0 => rng.pick(&[0, 49, 50, 256, u32::MAX]),
        1..=6 => 1 + rng.upto(3),
        _ => 1 + rng.upto(47),
    }
}
