//! The calls of the engine over lent bytes: step, fresh, bound and the session program.

use super::bound;
use super::check;
use super::faults::{Fault, Rules};
use super::image::Image;
use super::machine::Machine;
use super::refusal::{require, Refusal};
use super::session;
use super::trace::Trace;

const LIFTS: u32 = 64;
pub const LARGEST_ALLOWANCE: u32 = 1_000_000;

/// What a packed answer multiplies its fields by.
pub const ITEMS_WEIGHT: u64 = 256;
pub const UNITS_WEIGHT: u64 = 131_072;
pub const BOUND_WEIGHT: u64 = 256;

pub struct Calls {
    /// None for the paper's rules.
    pub fault: Option<Fault>,
}

/// The calls by the paper's rules.
pub const PAPER: Calls = Calls { fault: None };

impl Calls {
    /// Refusal + 256 x items + 131,072 x units.
    pub fn step(&self, chart: &[u8], board: &mut [u8], trace: &mut [u8], lift: u32, event: u32, allowance: u32) -> u64 {
        self.try_step(chart, board, trace, lift, event, allowance).unwrap_or_else(Refusal::number)
    }

    /// The refusal.
    pub fn fresh(&self, chart: &[u8], board: &mut [u8], lift: u32) -> u64 {
        self.try_fresh(chart, board, lift).map_or_else(Refusal::number, |()| 0)
    }

    /// Refusal + 256 x bound.
    pub fn bound(&self, chart: &[u8]) -> u64 {
        let bound = check::accept(chart, self.rules()).and_then(|chart| bound::bound(&chart, self.rules()));
        bound.map_or_else(Refusal::number, |bound| BOUND_WEIGHT * bound)
    }

    /// What the session program writes for this input.
    pub fn session(&self, input: &[u8]) -> Vec<u8> {
        session::answer(self, input)
    }

    pub fn rules(&self) -> Rules {
        Rules { fault: self.fault }
    }

    fn try_step(
        &self,
        chart: &[u8],
        board: &mut [u8],
        lent_trace: &mut [u8],
        lift: u32,
        event: u32,
        allowance: u32,
    ) -> Result<u64, Refusal> {
        let rules = self.rules();
        let chart = check::accept(chart, rules)?;
        let part = part_of_lift(board, lift, rules)?;
        let image = Image::accept(part, &chart, rules)?;
        let event = event as usize;
        let event_right = (1..=chart.events).contains(&event) || event == 0 && rules.wrong(Fault::EventZeroAllowed);
        let largest_allowance = LARGEST_ALLOWANCE + u32::from(rules.wrong(Fault::AllowanceOneMoreAllowed));
        let allowance_right = allowance <= largest_allowance;
        require(event_right || !allowance_right && rules.wrong(Fault::AllowanceBeforeEvent), Refusal::Event)?;
        require(allowance_right, Refusal::Allowance)?;

        let mut machine = Machine::new(&chart, image, Trace::with_room_of(lent_trace, rules), allowance, rules);
        let outcome = machine.step(event);
        if outcome.is_ok() || rules.wrong(Fault::RefusedStepWritesBoard) {
            part.copy_from_slice(&machine.image.bytes());
        }
        outcome?;
        machine.trace.write(lent_trace);
        Ok(ITEMS_WEIGHT * machine.trace.count() as u64 + UNITS_WEIGHT * u64::from(machine.units))
    }

    fn try_fresh(&self, chart: &[u8], board: &mut [u8], lift: u32) -> Result<(), Refusal> {
        let rules = self.rules();
        let chart = check::accept(chart, rules)?;
        let part = part_of_lift(board, lift, rules)?;
        let mut bytes = Image::fresh(&chart).bytes();
        if rules.wrong(Fault::FreshKeepsHistory) {
            bytes[Image::HISTORY].copy_from_slice(&part[Image::HISTORY]);
        }
        part.copy_from_slice(&bytes);
        Ok(())
    }
}

fn part_of_lift(board: &mut [u8], lift: u32, rules: Rules) -> Result<&mut [u8], Refusal> {
    let lifts = LIFTS + u32::from(rules.wrong(Fault::LiftSixtyFourAllowed));
    require(lift < lifts, Refusal::Lift)?;
    let start = Image::BYTES * lift as usize;
    board.get_mut(start..start + Image::BYTES).ok_or(Refusal::Lift)
}

#[cfg(test)]
mod tests {
    use super::super::trial::*;
    use crate::draft::*;

    #[test]
    fn units_of_the_second_step_of_chart_a() {
        let mut lift = Lift::started(&Draft::chart_a());
        let before = lift.board.clone();
        assert_eq!(lift.step(1, 5), (16, 0, vec![]));
        assert_eq!(lift.step(1, 0), (16, 0, vec![]));
        assert_eq!(lift.board, before);
        assert_eq!(lift.step(1, 6).0, 0);
    }

    #[test]
    fn events_and_allowances_of_chart_a() {
        let mut lift = Lift::fresh(&Draft::chart_a());
        assert_eq!(lift.step(0, ENOUGH).0, 14);
        assert_eq!(lift.step(3, 1_000_001).0, 14);
        assert_eq!(lift.step(1, 1_000_001).0, 15);
        assert_eq!(lift.step(1, 1_000_000).0, 0);
    }

    #[test]
    fn trace_room_of_chart_a() {
        let mut lift = Lift::started(&Draft::chart_a());
        lift.trace = vec![0xEE; 23];
        assert_eq!(lift.step(1, ENOUGH).0, 20);
        assert_eq!(lift.trace, vec![0xEE; 23]);
        lift.trace = vec![0xEE; 24];
        assert_eq!(lift.step(1, ENOUGH).0, 0);
    }

    #[test]
    fn only_the_lift_named_is_written() {
        let chart = Draft::chart_a().bytes();
        let mut board = vec![0xEE; 3 * 202];
        assert_eq!(PAPER.fresh(&chart, &mut board, 1), 0);
        assert_eq!(board[202..204], *b"IM");
        assert_eq!(board[..202], [0xEE; 202]);
        assert_eq!(board[404..], [0xEE; 202]);
        assert_eq!(PAPER.fresh(&chart, &mut board, 3), 12);
        assert_eq!(PAPER.fresh(&chart, &mut vec![0; 65 * 202], 64), 12);
        assert_eq!(PAPER.step(&chart, &mut board, &mut [], 0, 1, ENOUGH), 13);
    }
}
