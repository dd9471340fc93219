use crate::raw;

/// An objective over a matroid, with the settings of both.
pub trait Pile {
    /// Carries out calls given as bytes, into answers as bytes. What is returned is told in
    /// `fogetsu.h`.
    fn carry_out(&self, size: u32, calls: &[u8], answers: &mut [u8]) -> u64;
}

/// Coverage over a partition matroid.
#[derive(Clone, Copy, Debug)]
pub struct CoveragePartition<'a> {
    pub weights: &'a [u32],
    pub caps: &'a [u32],
}

/// The sum of coverage under the cap `cap` and facility location over `table`; the laminar matroid
/// of `caps` and `parents`, truncated to `most`.
#[derive(Clone, Copy, Debug)]
pub struct CappedFacilityLaminar<'a> {
    pub weights: &'a [u32],
    pub cap: u32,
    pub table: &'a [u16],
    pub most: u32,
    pub caps: &'a [u32],
    pub parents: &'a [u32],
}

/// The sum of concave counts and coverage; graphic for side 0, a partition matroid for side 1.
#[derive(Clone, Copy, Debug)]
pub struct ConcaveGraphic<'a> {
    pub steps: &'a [u32],
    pub weights: &'a [u32],
    pub caps: &'a [u32],
}

// In each call below the pointers and lengths are those of whole slices, and `answers` is the only
// one written to, borrowed as such.

#[rustfmt::skip]
impl Pile for CoveragePartition<'_> {
    fn carry_out(&self, size: u32, calls: &[u8], answers: &mut [u8]) -> u64 {
        unsafe {
            raw::fogetsu_coverage_partition(
                size,
                self.weights.as_ptr(), self.weights.len(),
                self.caps.as_ptr(), self.caps.len(),
                calls.as_ptr(), calls.len(),
                answers.as_mut_ptr(), answers.len(),
            )
        }
    }
}

#[rustfmt::skip]
impl Pile for CappedFacilityLaminar<'_> {
    fn carry_out(&self, size: u32, calls: &[u8], answers: &mut [u8]) -> u64 {
        unsafe {
            raw::fogetsu_capped_facility_laminar(
                size,
                self.weights.as_ptr(), self.weights.len(),
                self.cap,
                self.table.as_ptr(), self.table.len(),
                self.most,
                self.caps.as_ptr(), self.caps.len(),
                self.parents.as_ptr(), self.parents.len(),
                calls.as_ptr(), calls.len(),
                answers.as_mut_ptr(), answers.len(),
            )
        }
    }
}

#[rustfmt::skip]
impl Pile for ConcaveGraphic<'_> {
    fn carry_out(&self, size: u32, calls: &[u8], answers: &mut [u8]) -> u64 {
        unsafe {
            raw::fogetsu_concave_graphic(
                size,
                self.steps.as_ptr(), self.steps.len(),
                self.weights.as_ptr(), self.weights.len(),
                self.caps.as_ptr(), self.caps.len(),
                calls.as_ptr(), calls.len(),
                answers.as_mut_ptr(), answers.len(),
            )
        }
    }
}
