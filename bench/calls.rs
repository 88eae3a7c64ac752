//! The measured programs behind one type: the proved library, the second program and the plain one.
use crate::library;
use crate::lifts;
use crate::second::calls::PAPER;

/// Chart, board, trace, lift, event, allowance.
pub type Step = fn(&[u8], &mut [u8], &mut [u8], u32, u32, u32) -> u64;

#[derive(Clone, Copy)]
pub struct Program {
    pub step: Step,
    pub fresh: fn(&[u8], &mut [u8], u32) -> u64,
    pub bound: fn(&[u8]) -> u64,
}

pub const PROVED: Program = Program { step: proved_step, fresh: proved_fresh, bound: proved_bound };

pub const SECOND: Program = Program {
    step: |chart, board, trace, lift, event, allowance| PAPER.step(chart, board, trace, lift, event, allowance),
    fresh: |chart, board, lift| PAPER.fresh(chart, board, lift),
    bound: |chart| PAPER.bound(chart),
};

pub const PLAIN: Program = Program { step: lifts::step, fresh: lifts::fresh, bound: lifts::bound };

/// In the order of every table's columns.
pub const PROGRAMS: [Program; 3] = [PROVED, SECOND, PLAIN];
pub const NAMES: [&str; 3] = ["proved", "second", "plain"];

fn proved_step(chart: &[u8], board: &mut [u8], trace: &mut [u8], lift: u32, event: u32, allowance: u32) -> u64 {
    let (c, b, t) = (chart.as_ptr(), board.as_mut_ptr(), trace.as_mut_ptr());
    unsafe { library::step(c, chart.len(), b, board.len(), t, trace.len(), lift, event, allowance) }
}

fn proved_fresh(chart: &[u8], board: &mut [u8], lift: u32) -> u64 {
    unsafe { library::fresh(chart.as_ptr(), chart.len(), board.as_mut_ptr(), board.len(), lift) }
}

fn proved_bound(chart: &[u8]) -> u64 {
    unsafe { library::bound(chart.as_ptr(), chart.len()) }
}
