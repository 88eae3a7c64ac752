//! The proved calls, the second program and the plain one behind one interface, and what a case leaves of the bytes lent to it.
use crate::generate::cases::{Call, Case};
use crate::library;
use crate::plain;
use crate::program::calls::Calls;
use std::ops::Range;

/// Something that can answer a case, given the bytes that are lent.
pub trait Engine {
    fn answer(&self, case: &Case, chart: &mut Lent, board: &mut Lent, trace: &mut Lent) -> u64;
}

/// The library of proved calls.
pub struct Proved;

impl Engine for Proved {
    fn answer(&self, case: &Case, chart: &mut Lent, board: &mut Lent, trace: &mut Lent) -> u64 {
        let [(c, c_bytes), (b, b_bytes), (t, t_bytes)] = [chart, board, trace].map(Lent::pointer);
        unsafe {
            match case.call {
                Call::Step => library::step(c, c_bytes, b, b_bytes, t, t_bytes, case.lift, case.event, case.allowance),
                Call::Fresh => library::fresh(c, c_bytes, b, b_bytes, case.lift),
                Call::Bound => library::bound(c, c_bytes),
            }
        }
    }
}

impl Engine for Calls {
    fn answer(&self, case: &Case, chart: &mut Lent, board: &mut Lent, trace: &mut Lent) -> u64 {
        let (chart, board, trace) = (chart.slice(), board.slice_mut(), trace.slice_mut());
        match case.call {
            Call::Step => self.step(chart, board, trace, case.lift, case.event, case.allowance),
            Call::Fresh => self.fresh(chart, board, case.lift),
            Call::Bound => self.bound(chart),
        }
    }
}

/// The plain program, which the benchmarks measure the proved calls by.
pub struct Plain;

impl Engine for Plain {
    fn answer(&self, case: &Case, chart: &mut Lent, board: &mut Lent, trace: &mut Lent) -> u64 {
        let (chart, board, trace) = (chart.slice(), board.slice_mut(), trace.slice_mut());
        match case.call {
            Call::Step => plain::step(chart, board, trace, case.lift, case.event, case.allowance),
            Call::Fresh => plain::fresh(chart, board, case.lift),
            Call::Bound => plain::bound(chart),
        }
    }
}

/// A slice to lend, out of the middle of more bytes; where it starts has nothing to do with a word's size.
#[derive(PartialEq)]
pub struct Lent {
    bytes: Vec<u8>,
    before: usize,
}

impl Lent {
    const GUARD: usize = 64;
    const PATTERN: u8 = 0xA5;

    fn new(content: &[u8], shift: usize) -> Lent {
        let before = Lent::GUARD + shift % 16;
        let mut bytes = Vec::with_capacity(before + content.len() + Lent::GUARD);
        bytes.resize(before, Lent::PATTERN);
        bytes.extend(content);
        bytes.resize(before + content.len() + Lent::GUARD, Lent::PATTERN);
        Lent { bytes, before }
    }

    fn middle(&self) -> Range<usize> {
        self.before..self.bytes.len() - Lent::GUARD
    }

    pub fn slice(&self) -> &[u8] {
        &self.bytes[self.middle()]
    }

    fn slice_mut(&mut self) -> &mut [u8] {
        let middle = self.middle();
        &mut self.bytes[middle]
    }

    /// Where the slice starts, and its length; the guards are within the pointer's reach, so that a write there is seen.
    fn pointer(&mut self) -> (*mut u8, usize) {
        let middle = self.middle();
        (self.bytes[..].as_mut_ptr().wrapping_add(middle.start), middle.len())
    }

    /// The first byte in which two differ, counted from the lent slice's first: before and behind it are the guards.
    pub fn first_difference(&self, other: &Lent) -> Option<(isize, u8, u8)> {
        let mut pairs = self.bytes.iter().zip(&other.bytes).enumerate();
        let (place, (&one, &two)) = pairs.find(|(_, (one, two))| one != two)?;
        Some((place as isize - self.before as isize, one, two))
    }
}

/// What a call answered, and the bytes lent to it with their guards.
#[derive(PartialEq)]
pub struct Outcome {
    pub answer: u64,
    pub chart: Lent,
    pub board: Lent,
    pub trace: Lent,
}

/// Before a call the trace has bytes of its own, so that those not written can be told from those written.
const TRACE_BEFORE: u8 = 0x5C;

impl Outcome {
    pub fn of(engine: &dyn Engine, case: &Case) -> Outcome {
        let shift = case.trace + case.lift as usize;
        let (mut chart, mut board) = (Lent::new(&case.chart, shift), Lent::new(&case.board, shift / 3));
        let mut trace = Lent::new(&vec![TRACE_BEFORE; case.trace], shift / 5);
        let answer = engine.answer(case, &mut chart, &mut board, &mut trace);
        Outcome { answer, chart, board, trace }
    }
}
