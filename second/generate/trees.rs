//! Random trees of states, from the root alone to the limits of count and depth.
use super::random::Random;
use crate::draft::{Draft, State, ALL_OF, LEAF, ONE_OF};

/// Where new states tend to hang.
#[derive(Clone, Copy)]
enum Lean {
    Anywhere,
    Deep,
    Wide,
}

pub fn grow(random: &mut Random, count: usize) -> Vec<State> {
    let lean = random.pick(&[Lean::Anywhere, Lean::Deep, Lean::Wide]);
    let mut states = vec![State::default()];
    let mut depths = vec![0];
    for _ in 1..count {
        let parent = pick_parent(random, lean, &depths);
        depths.push(depths[parent] + 1);
        states.push(State { parent: parent as u8, ..State::default() });
    }
    let mut draft = Draft { states, ..Draft::default() };
    for s in 0..count {
        settle(random, &mut draft, s);
    }
    draft.states
}

/// A state that may still have a child; the root always may.
fn pick_parent(random: &mut Random, lean: Lean, depths: &[usize]) -> usize {
    loop {
        let parent = match lean {
            Lean::Deep if random.percent(75) => depths.len() - 1,
            Lean::Wide if random.percent(50) => 0,
            _ => random.below(depths.len()),
        };
        if depths[parent] < Draft::DEPTH {
            return parent;
        }
    }
}

/// The kind that the children allow, and what goes with it.
pub fn settle(random: &mut Random, draft: &mut Draft, s: usize) {
    let children = draft.children(s);
    let state = &mut draft.states[s];
    if children.is_empty() {
        state.kind = LEAF;
    } else if random.percent(35) {
        state.kind = ALL_OF;
    } else {
        state.kind = ONE_OF;
        state.initial = random.pick(&children) as u8;
        state.history = random.percent(45) as u8;
    }
}

/// A chain of new states from the root down to this depth; what is there already stays as it is.
pub fn deepen(draft: &mut Draft, depth: usize) {
    if draft.states[0].kind == LEAF {
        draft.states[0].kind = ALL_OF;
    }
    let first = draft.states.len();
    for level in 1..=depth {
        let parent = if level == 1 { 0 } else { first + level - 2 };
        let kind = if level == depth { LEAF } else { ALL_OF };
        draft.state(parent, kind, 0);
    }
}
