use plain::piles::{self, returned, Tape};

/// The settings of a pile, good or bad, to be handed to both sides.
#[derive(Clone, Debug)]
pub enum Pile {
    CoveragePartition {
        weights: Vec<u32>,
        caps: Vec<u32>,
    },
    CappedFacilityLaminar {
        weights: Vec<u32>,
        cap: u32,
        table: Vec<u16>,
        most: u32,
        caps: Vec<u32>,
        parents: Vec<u32>,
    },
    ConcaveGraphic {
        steps: Vec<u32>,
        weights: Vec<u32>,
        caps: Vec<u32>,
    },
}

pub const NAMES: [&str; 3] = [
    "coverage, partition",
    "capped + facility, laminar",
    "concave + coverage, graphic",
];

impl Pile {
    pub fn index(&self) -> usize {
        match self {
            Pile::CoveragePartition { .. } => 0,
            Pile::CappedFacilityLaminar { .. } => 1,
            Pile::ConcaveGraphic { .. } => 2,
        }
    }

    /// The run by the plain implementation.
    pub fn plain(&self, size: u32, calls: &[u8], answers: &mut [u8]) -> u64 {
        let tape = Tape { calls, answers };
        returned(match self {
            Pile::CoveragePartition { weights, caps } => {
                piles::coverage_partition(size, weights, caps, tape)
            }
            Pile::CappedFacilityLaminar {
                weights,
                cap,
                table,
                most,
                caps,
                parents,
            } => {
                let settings = piles::CappedFacilityLaminar {
                    weights,
                    cap: *cap,
                    table,
                    most: *most,
                    caps,
                    parents,
                };
                piles::capped_facility_laminar(size, &settings, tape)
            }
            Pile::ConcaveGraphic {
                steps,
                weights,
                caps,
            } => piles::concave_graphic(size, steps, weights, caps, tape),
        })
    }
}

/// The run by the linked library.
impl fogetsu::Pile for Pile {
    fn carry_out(&self, size: u32, calls: &[u8], answers: &mut [u8]) -> u64 {
        match self {
            Pile::CoveragePartition { weights, caps } => {
                let pile = fogetsu::CoveragePartition { weights, caps };
                pile.carry_out(size, calls, answers)
            }
            Pile::CappedFacilityLaminar {
                table,
                weights,
                cap,
                parents,
                caps,
                most,
            } => {
                let pile = fogetsu::CappedFacilityLaminar {
                    table,
                    weights,
                    cap: *cap,
                    parents,
                    caps,
                    most: *most,
                };
                pile.carry_out(size, calls, answers)
            }
            Pile::ConcaveGraphic {
                steps,
                weights,
                caps,
            } => {
                let pile = fogetsu::ConcaveGraphic {
                    steps,
                    weights,
                    caps,
                };
                pile.carry_out(size, calls, answers)
            }
        }
    }
}
