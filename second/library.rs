//! The calls of the proved library, as include/afraulenc.h has them.
extern "C" {
    pub fn step(
        chart: *const u8,
        chart_bytes: usize,
        board: *mut u8,
        board_bytes: usize,
        trace: *mut u8,
        trace_bytes: usize,
        lift: u32,
        event: u32,
        allowance: u32,
    ) -> u64;
    pub fn fresh(chart: *const u8, chart_bytes: usize, board: *mut u8, board_bytes: usize, lift: u32) -> u64;
    pub fn bound(chart: *const u8, chart_bytes: usize) -> u64;
}
