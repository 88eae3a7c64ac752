//! What the tests share: charts to try, and one lift on which a test steps a chart.
pub use super::calls::{Calls, PAPER};
use super::calls::{BOUND_WEIGHT, ITEMS_WEIGHT, UNITS_WEIGHT};
use crate::draft::*;

pub const ENOUGH: u32 = 1_000_000;

/// Leaves 1 and 2 under a one-of root: G is 6, so that the bound is 3 x 7 and the summed W.
pub fn two_leaves() -> Draft {
    Draft::over_leaves(ONE_OF, 2)
}

/// Leaves 1, 2 and 3 under a one-of root that starts in 1; one variable.
pub fn three_leaves() -> Draft {
    Draft { variables: vec![0], ..Draft::over_leaves(ONE_OF, 3) }
}

/// On its way to 3, event 1 sends event 2 to the root, on which 1 goes to 2.
pub fn abandoned_path() -> Draft {
    let mut chart = three_leaves();
    chart.segment(outer(1), to_state(3), 1).condition_action(&[send(2, 0)]).segment(outer(1), to_state(2), 2);
    chart
}

/// Leaf 1 beside all-of 2, the initial one, with one-of children 3 (leaves 4, 5; history) and 6 (leaf 7).
pub fn nested() -> Draft {
    let mut chart = Draft::new(2, 2);
    chart.state(0, ONE_OF, 2).leaves(0, 1).state(0, ALL_OF, 0).exit(&[raise(2)]);
    chart.state(2, ONE_OF, 4).history().leaves(3, 2).state(2, ONE_OF, 7).leaves(6, 1);
    chart
}

/// State 1 sends to itself so many times, each time from within the run that the last send began.
/// Variable 0 counts the sends; every path ends at junction 0, a dead end.
pub fn self_sender(times: i16) -> Draft {
    let mut chart = two_leaves();
    chart.variable(0).junction(0).segment(inner(1), to_junction(0), 0);
    chart.condition(&[load(0), push(times), LESS]);
    chart.condition_action(&[load(0), push(1), ADD, store(0), send(1, 1)]);
    chart
}

/// A chart with the bound asked for, made of junctions with two segments each to the next: 2 x (1 + the next's weight).
pub fn chart_of_bound(bound: u64) -> Draft {
    let mut chart = two_leaves();
    chart.segment(outer(1), to_junction(0), 0);
    let mut weight = bound - 21 - 1;
    for number in 0.. {
        chart.junction(0);
        if weight % 2 == 1 {
            chart.segment(from_junction(number), to_state(2), 0);
        }
        if weight < 2 {
            break;
        }
        twice(&mut chart, from_junction(number), to_junction(number + 1));
        weight = weight / 2 - 1;
    }
    chart
}

/// Two segments of the same ends.
pub fn twice(chart: &mut Draft, source: End, destination: End) {
    chart.segment(source, destination, 0).segment(source, destination, 0);
}

/// A board of one lift with the trace bytes of a session.
pub struct Lift {
    pub calls: Calls,
    chart: Vec<u8>,
    pub board: Vec<u8>,
    pub trace: Vec<u8>,
}

impl Lift {
    pub fn fresh(chart: &Draft) -> Lift {
        let mut lift = Lift { calls: PAPER, chart: chart.bytes(), board: vec![0; 202], trace: vec![0; 1024] };
        assert_eq!(lift.calls.fresh(&lift.chart, &mut lift.board, 0), 0);
        lift
    }

    /// A lift that has started.
    pub fn started(chart: &Draft) -> Lift {
        let mut lift = Lift::fresh(chart);
        assert_eq!(lift.step(1, ENOUGH).0, 0);
        lift
    }

    /// Refusal, units and items.
    pub fn step(&mut self, event: u32, allowance: u32) -> (u64, u64, Vec<u32>) {
        let answer = self.calls.step(&self.chart, &mut self.board, &mut self.trace, 0, event, allowance);
        let count = answer % UNITS_WEIGHT / ITEMS_WEIGHT;
        let items = self.trace.chunks_exact(4).take(count as usize);
        let items = items.map(|item| u32::from_le_bytes([item[0], item[1], item[2], item[3]])).collect();
        (answer % ITEMS_WEIGHT, answer / UNITS_WEIGHT, items)
    }

    /// The active bits of states 0 to 7.
    pub fn active(&self) -> u8 {
        self.board[2]
    }

    pub fn history(&self, state: usize) -> u8 {
        self.board[10 + state]
    }

    pub fn variable(&self, number: usize) -> i32 {
        let at = 74 + 4 * number;
        i32::from_le_bytes([self.board[at], self.board[at + 1], self.board[at + 2], self.board[at + 3]])
    }
}

/// The bound call's refusal and bound.
pub fn bound(chart: &Draft) -> (u64, u64) {
    let answer = PAPER.bound(&chart.bytes());
    (answer % BOUND_WEIGHT, answer / BOUND_WEIGHT)
}
