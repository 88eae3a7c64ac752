//! Ways to break the rules of counts, of states and junctions, and of segments: numbers 3, 6 and 7.
use super::random::Random;
use super::trees;
use crate::draft::*;

/// One record more than a table may have, or one event or output; the length is that of the counts.
pub fn beyond_limit(random: &mut Random, draft: &mut Draft) {
    match random.below(8) {
        0 => {
            if draft.states[0].kind == LEAF {
                draft.states[0].kind = ALL_OF;
            }
            draft.states.resize(Draft::STATES + 1, State::default());
        }
        1 => draft.junctions.resize(Draft::JUNCTIONS + 1, 0),
        2 => draft
            .segments
            .resize(Draft::SEGMENTS + 1, Segment { source: outer(1), destination: to_state(1), ..Segment::default() }),
        3 => draft.variables.resize(Draft::VARIABLES + 1, 1),
        4 => draft.events = Draft::EVENTS as u8 + 1,
        5 => draft.events = 0,
        6 => draft.outputs = Draft::OUTPUTS as u8 + 1,
        _ => draft.code.resize(Draft::CODE + 1, push(0)),
    }
}

/// A rule of states or of junctions broken; ways that this draft does not offer are passed over.
pub fn states(random: &mut Random, draft: &mut Draft) {
    let broken = |way: usize, random: &mut Random, draft: &mut Draft| match way {
        0 => wrong_parent(random, draft),
        1 => wrong_kind(random, draft),
        2 => wrong_initial(random, draft),
        3 => wrong_history(random, draft),
        4 => too_deep(draft),
        _ => wrong_junction(random, draft),
    };
    loop {
        let way = random.below(6);
        if broken(way, random, draft) {
            return;
        }
    }
}

fn wrong_parent(random: &mut Random, draft: &mut Draft) -> bool {
    let count = draft.states.len();
    let s = random.below(count);
    let wrong = [s, s + 1, count - 1, count, 255];
    let parent = random.pick(&wrong) as u8;
    draft.states[s].parent = parent;
    if s == 0 {
        parent != 0
    } else {
        parent as usize >= s
    }
}

/// A state of any kind that there is, each kind as often as the others.
fn any_by_kind(random: &mut Random, draft: &Draft) -> usize {
    let mut kinds: Vec<u8> = draft.states.iter().map(|state| state.kind).collect();
    kinds.sort();
    kinds.dedup();
    let kind = random.pick(&kinds);
    let alike: Vec<usize> = (0..draft.states.len()).filter(|&s| draft.states[s].kind == kind).collect();
    random.pick(&alike)
}

/// A kind that there is not, or one that the children do not allow.
fn wrong_kind(random: &mut Random, draft: &mut Draft) -> bool {
    let s = any_by_kind(random, draft);
    let childless = draft.states[s].kind == LEAF;
    let state = &mut draft.states[s];
    if random.percent(30) {
        state.kind = random.pick(&[3, 4, 255]);
    } else if childless {
        state.kind = random.pick(&[ONE_OF, ALL_OF]);
    } else {
        (state.kind, state.initial, state.history) = (LEAF, 0, 0);
    }
    true
}

/// An initial state that is no child of its one-of state, or any where there has to be none.
fn wrong_initial(random: &mut Random, draft: &mut Draft) -> bool {
    let s = any_by_kind(random, draft);
    let parent = draft.states[s].parent as usize;
    let mut wrong = vec![0, s, parent, draft.states.len(), 255, random.below(draft.states.len())];
    wrong.extend(draft.children(s));
    wrong.extend(draft.children(s).iter().flat_map(|&child| draft.children(child)));
    let initial = random.pick(&wrong);
    let right = if draft.states[s].kind == ONE_OF { draft.children(s).contains(&initial) } else { initial == 0 };
    draft.states[s].initial = initial as u8;
    !right
}

/// A history flag that is neither 0 nor 1, or one on a state that is not one-of.
fn wrong_history(random: &mut Random, draft: &mut Draft) -> bool {
    let s = any_by_kind(random, draft);
    let one_of = draft.states[s].kind == ONE_OF;
    draft.states[s].history = if one_of { random.pick(&[2, 3, 128, 255]) } else { 1 };
    true
}

fn too_deep(draft: &mut Draft) -> bool {
    let fits = draft.states.len() + Draft::DEPTH < Draft::STATES;
    if fits {
        trees::deepen(draft, Draft::DEPTH + 1);
    }
    fits
}

fn wrong_junction(random: &mut Random, draft: &mut Draft) -> bool {
    let j = random.below(draft.junctions.len());
    draft.junctions[j] = random.pick(&[draft.states.len() as u8, 64, 255]);
    draft.junctions[j] as usize >= draft.states.len()
}

/// A segment from or to what there is not, or to or from the root, or with an event that there is not.
pub fn segment(random: &mut Random, draft: &mut Draft) {
    let (states, junctions) = (draft.states.len(), draft.junctions.len());
    let beyond = [from_junction(junctions), from_junction(255), outer(states), inner(states), outer(255)];
    let events = draft.events;
    let t = random.below(draft.segments.len());
    let segment = &mut draft.segments[t];
    match random.below(8) {
        0 => segment.source.0 = random.pick(&[3, 4, 255]),
        1 => segment.source = random.pick(&[outer(0), inner(0)]),
        2..=3 => segment.source = random.pick(&beyond),
        4 => segment.destination.0 = random.pick(&[2, 3, 255]),
        5 => segment.destination = to_state(0),
        6 => segment.destination = random.pick(&[to_state(states), to_state(255), to_junction(junctions), to_junction(255)]),
        _ => segment.event = random.pick(&[events + 1, events + 1, 255]),
    }
}
