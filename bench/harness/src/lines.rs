//! Two production lines to measure on, and the piles for them.

use fogetsu::Frame;

use crate::pile::Pile;
use crate::rng::Rng;

/// On a steady line nearly every frame shows what was seen before, and has gain 0. On a changing one
/// most frames show something else, and are judged against the kept ones.
#[derive(Clone, Copy, PartialEq, Eq)]
pub enum Line {
    Steady,
    Changing,
}

const LANES: u64 = 16;

/// The classes shown first, and worth more than the others.
const EARLY: u64 = 48;

fn any_frame(rng: &mut Rng, class: u64) -> Frame {
    Frame {
        frame: rng.next() as u32,
        marks: 1 << class,
        look: class as u8,
        lane: rng.below(LANES) as u8,
        tail: rng.below(64) as u8,
        head: rng.below(64) as u8,
        side: rng.below(2) as u8,
    }
}

fn steady(rng: &mut Rng) -> Frame {
    if rng.once_in(1000) {
        let class = rng.below(64);
        return any_frame(rng, class);
    }
    let kind = rng.below(2) as u8;
    Frame {
        frame: rng.next() as u32,
        marks: 0xf << (4 * kind),
        look: kind,
        lane: kind,
        tail: kind,
        head: 2 + kind,
        side: kind,
    }
}

fn changing(rng: &mut Rng, index: usize) -> Frame {
    let class = if index < 1000 || rng.once_in(5) {
        rng.below(EARLY)
    } else {
        EARLY + rng.below(64 - EARLY)
    };
    any_frame(rng, class)
}

pub fn frames(line: Line, count: usize) -> Vec<Frame> {
    let mut rng = Rng::new(11);
    let frame = |index| match line {
        Line::Steady => steady(&mut rng),
        Line::Changing => changing(&mut rng, index),
    };
    (0..count).map(frame).collect()
}

/// What a class is worth, out of a highest value: the later ones half as much.
fn worth(rng: &mut Rng, class: u64, highest: u64) -> u64 {
    let most = if class < EARLY { highest } else { highest / 2 };
    most - rng.below(most / 4)
}

fn weights() -> Vec<u32> {
    let mut rng = Rng::new(12);
    (0..64)
        .map(|class| worth(&mut rng, class, 20_000) as u32)
        .collect()
}

/// Each look is like one view.
fn table() -> Vec<u16> {
    let mut rng = Rng::new(13);
    let mut table = vec![0; 64 * 64];
    for look in 0..64 {
        table[64 * look + look] = worth(&mut rng, look as u64, 60_000) as u16;
    }
    table
}

fn steps(line: Line) -> Vec<u32> {
    let lane: [u32; 8] = match line {
        Line::Steady => [8000, 0, 0, 0, 0, 0, 0, 0],
        Line::Changing => [8000, 4000, 2000, 1000, 500, 250, 125, 60],
    };
    lane.repeat(64)
}

/// A pile by its index, with lanes that fill up when the picker does.
pub fn pile(index: usize, line: Line, size: u32) -> Pile {
    let cap = size.div_ceil(LANES as u32);
    let caps = vec![cap; 64];
    match index {
        0 => Pile::CoveragePartition {
            weights: weights(),
            caps,
        },
        1 => Pile::CappedFacilityLaminar {
            weights: weights(),
            cap: 300_000,
            table: table(),
            most: size,
            caps: [caps, vec![4 * cap; 32]].concat(),
            parents: boxes(),
        },
        _ => Pile::ConcaveGraphic {
            steps: steps(line),
            weights: weights(),
            caps,
        },
    }
}

/// Four lanes to a box, and those boxes in no other.
fn boxes() -> Vec<u32> {
    let lanes = (0..64).map(|lane| 64 + lane / 4);
    lanes.chain([255; 32]).collect()
}
