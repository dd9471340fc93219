//! The library's calls as they are linked; `fogetsu.h` says what each means. A slice crosses as a
//! pointer and a length.

#[rustfmt::skip]
unsafe extern "C" {
    pub fn fogetsu_coverage_partition(
        size: u32,
        weights: *const u32, weights_length: usize,
        caps: *const u32, caps_length: usize,
        calls: *const u8, calls_length: usize,
        answers: *mut u8, answers_length: usize,
    ) -> u64;

    pub fn fogetsu_capped_facility_laminar(
        size: u32,
        weights: *const u32, weights_length: usize,
        cap: u32,
        table: *const u16, table_length: usize,
        most: u32,
        caps: *const u32, caps_length: usize,
        parents: *const u32, parents_length: usize,
        calls: *const u8, calls_length: usize,
        answers: *mut u8, answers_length: usize,
    ) -> u64;

    pub fn fogetsu_concave_graphic(
        size: u32,
        steps: *const u32, steps_length: usize,
        weights: *const u32, weights_length: usize,
        caps: *const u32, caps_length: usize,
        calls: *const u8, calls_length: usize,
        answers: *mut u8, answers_length: usize,
    ) -> u64;
}
