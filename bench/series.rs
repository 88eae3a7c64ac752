//! The charts of which one thing grows: the bytes, the units of an event, the levels.
use crate::charts::{there_and_back, Case};
use crate::draft::*;

/// How far it has grown, and the units that an event of the case uses.
pub struct Grown {
    pub to: usize,
    pub units: usize,
    pub case: Case,
}

/// The two leaves, there and back, with ever more in the tables that no event comes to.
pub fn bytes() -> Vec<Grown> {
    let grown = |eighths| {
        let mut draft = there_and_back();
        if eighths > 0 {
            fill(&mut draft, eighths);
        }
        let chart = draft.bytes();
        // two runs, a segment tried, one leaf left and one entered
        Grown { to: chart.len(), units: 5, case: Case::new(chart, vec![1, 2]) }
    };
    [0, 1, 2, 4, 6, 8].map(grown).into()
}

/// Fills the tables to so many eighths: below a state that is never entered, and with junctions that are never reached.
fn fill(draft: &mut Draft, eighths: usize) {
    let part = |whole: usize| whole * eighths / 8;
    let (states, junctions, variables) = (part(61), part(64), part(32));
    let (above, leaves) = (3, states - 1);
    draft.state(0, ONE_OF, above + 1).leaves(above, leaves);
    draft.junctions = (0..junctions).map(|n| (n % 3) as u8).collect();
    draft.variables = (0..variables as i32).collect();
    let (mut actions, mut conditions) = (vec![], vec![]);
    for n in 0..part(128) {
        let v = n % variables;
        actions.push(draft.block(&[load(v), push(1), ADD, store(v)]));
        conditions.push(draft.block(&[load(v), push(2), REMAINDER, NOT]));
    }
    let of = |blocks: &[Block], n: usize| blocks[n % blocks.len()];
    for s in 3..3 + states {
        draft.states[s].blocks = [s, s + 1, s + 2].map(|n| of(&actions, n));
    }
    for t in 2..2 + part(254) {
        draft.segment(outer(above + 1 + t % leaves), to_junction(t % junctions), 1 + t % 2);
        draft.condition(of(&conditions, t)).condition_action(of(&actions, t)).transition_action(of(&actions, t + 1));
    }
}

/// Two leaves side by side: the first sends to the other, more often on each next event.
pub fn units() -> Vec<Grown> {
    const SENDS: [usize; 6] = [0, 1, 4, 16, 64, 240];
    const SENT: usize = 7;
    const TRIED: usize = 16;
    let mut draft = Draft::new(SENT, 0);
    draft.state(0, ALL_OF, 0).leaves(0, 2).variable(0);
    // a dead end, so that the first leaf stays
    draft.junction(0);
    let sends = draft.block(&[send(SENT, 2); 240]);
    let fails = draft.block(&[load(0), push(1), EQUAL]);
    for (place, &count) in SENDS.iter().enumerate() {
        // they are the first instructions, so that none of them start at 0, too
        let some = Block { count: count as u8, ..sends };
        draft.segment(outer(1), to_junction(0), 1 + place).condition_action(some);
    }
    for _ in 0..TRIED {
        draft.segment(outer(2), to_state(1), SENT).condition(fails);
    }
    let grown = |place: usize| {
        // three runs, the first leaf's segments up to the one that passes, all of the other's; and for each send: itself, a run,
        // the other's segments and the three instructions of each
        let units = 3 + (place + 1) + TRIED + SENDS[place] * (2 + 4 * TRIED);
        Grown { to: units, units, case: Case::new(draft.bytes(), vec![1 + place as u32]) }
    };
    (0..SENDS.len()).map(grown).collect()
}

/// Two leaves at the bottom of so many levels: an event leaves and enters them all, since the way goes over the root's junctions.
pub fn levels() -> Vec<Grown> {
    let grown = |levels: usize| {
        let (one, other) = (levels, levels + 1);
        let mut draft = Draft::new(2, 0);
        for s in 0..levels {
            draft.state(s.saturating_sub(1), ONE_OF, s + 1);
        }
        draft.leaves(levels - 1, 2).junction(0).junction(0);
        for (junction, from, to) in [(0, one, other), (1, other, one)] {
            draft.segment(outer(from), to_junction(junction), 1 + junction);
            draft.segment(from_junction(junction), to_state(to), 0);
        }
        // the root's run, two segments tried; and each level is run, left and entered
        Grown { to: levels, units: 3 + 3 * levels, case: Case::new(draft.bytes(), vec![1, 2]) }
    };
    [1, 2, 4, 6, 8].map(grown).into()
}
