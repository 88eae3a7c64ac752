//! The charts that are measured one by one, drafted by code.
use crate::draft::*;
use crate::full;

/// A chart and the events that a lift of it gets, again and again.
pub struct Case {
    pub chart: Vec<u8>,
    pub events: Vec<u32>,
    /// Whether the lift is made fresh before the first of the events.
    pub anew: bool,
}

impl Case {
    pub fn new(chart: Vec<u8>, events: Vec<u32>) -> Case {
        Case { chart, events, anew: false }
    }
}

/// Those on which an event is measured.
pub fn measured() -> [(&'static str, Case); 4] {
    [("two leaves", two_leaves()), ("chart A", chart_a()), ("the middle chart", middle()), ("the largest chart", full::largest())]
}

pub fn two_leaves() -> Case {
    Case::new(there_and_back().bytes(), vec![1, 2])
}

/// The paper's own session of chart A: after it nothing moves any more, so it begins anew.
fn chart_a() -> Case {
    Case { chart: Draft::chart_a().bytes(), events: vec![1, 1, 2], anew: true }
}

pub fn middle() -> Case {
    // an order without a pattern, so that many states and segments have their turn
    Case::new(three_side_by_side(), (1..=96u32).map(|n| 1 + n * n * n * 7 % 997 % 6).collect())
}

pub fn deepest(sends: Sends) -> Case {
    Case::new(nine_levels(sends), vec![1])
}

/// An event there and one back, as in peers/toggle.scxml.
pub fn there_and_back() -> Draft {
    let mut draft = Draft::new(2, 0);
    draft.state(0, ONE_OF, 1).leaves(0, 2).segment(outer(1), to_state(2), 1).segment(outer(2), to_state(1), 2);
    draft
}

/// v becomes (5v + k) modulo 1009, which stays within 32 bits.
pub fn tick(v: usize, k: usize) -> [Instruction; 8] {
    [load(v), push(5), MULTIPLY, push(k as i16), ADD, push(1009), REMAINDER, store(v)]
}

/// Whether v is odd.
pub fn odd(v: usize) -> [Instruction; 3] {
    [load(v), push(2), REMAINDER]
}

/// A call, a door and a lamp side by side: 16 states, 4 junctions, 22 segments.
fn three_side_by_side() -> Vec<u8> {
    let mut draft = Draft::new(6, 4);
    draft.state(0, ALL_OF, 0);
    draft.state(0, ONE_OF, 2).leaves(1, 2).state(1, ONE_OF, 5).history().leaves(4, 2).leaves(1, 1);
    draft.state(0, ONE_OF, 9).leaves(8, 3).state(0, ONE_OF, 13).leaves(12, 3);
    draft.junctions = vec![1, 1, 8, 12];
    draft.variables = (0..8).collect();
    // states to states
    for (s, target, event) in [(2, 3, 1), (5, 6, 2), (6, 5, 3), (7, 2, 5), (9, 10, 1), (11, 9, 4), (13, 14, 1), (15, 13, 6)] {
        draft.segment(outer(s), to_state(target), event);
    }
    // states to junctions; the ringing call sends to the lamp
    draft.segment(outer(3), to_junction(0), 0).condition_action(&[send(6, 12)]);
    for (s, j, event) in [(4, 1, 4), (10, 2, 2), (14, 3, 0)] {
        draft.segment(outer(s), to_junction(j), event);
    }
    // each junction to one state if its variable is odd, else to another
    for (j, if_odd, otherwise) in [(0, 4, 7), (1, 2, 7), (2, 9, 11), (3, 15, 13)] {
        draft.segment(from_junction(j), to_state(if_odd), 0).condition(&odd(j));
        draft.segment(from_junction(j), to_state(otherwise), 0);
    }
    draft.segment(inner(1), to_state(7), 6).segment(inner(8), to_state(11), 6);
    for s in 1..16 {
        let (ticks, raises) = (draft.block(&tick(s % 8, s)), draft.block(&[raise(1 + s % 4)]));
        draft.states[s].blocks = [raises, ticks, raises];
    }
    draft.bytes()
}

/// Where the sends of the deepest step stand.
#[derive(Clone, Copy)]
pub enum Sends {
    InDuring,
    InConditionAction,
}

/// Nine levels, the lowest of which sends to the root until eight sends are open, then goes a long way back to itself.
fn nine_levels(sends: Sends) -> Vec<u8> {
    const WAY: i16 = 70;
    let mut draft = Draft::new(1, 0);
    for s in 0..8usize {
        draft.state(s.saturating_sub(1), ALL_OF, 0);
    }
    draft.leaves(7, 1).variable(0).variable(0).junction(0).junction(0);
    // junction 0 leads to itself while the way goes on, then to state 8; its parent is the root, so all levels are left
    draft.segment(outer(8), to_junction(0), 0).condition(&[load(0), push(8), EQUAL]);
    draft.segment(from_junction(0), to_junction(0), 0).condition(&[load(1), push(WAY), LESS]);
    draft.condition_action(&[load(1), push(1), ADD, store(1)]);
    draft.segment(from_junction(0), to_state(8), 0).transition_action(&[push(0), store(0), push(0), store(1)]);
    let opens = [load(0), push(1), ADD, store(0), send(1, 0)];
    match sends {
        Sends::InDuring => draft.during(opens),
        // junction 1 is a dead end
        Sends::InConditionAction => draft.segment(outer(8), to_junction(1), 0).condition_action(opens),
    };
    draft.bytes()
}
