//! Random segments between states and junctions, with their events and blocks.
use super::code::Pool;
use super::random::Random;
use crate::draft::*;

/// How the segments of one chart tend to be; shares are of a hundred.
pub struct Wiring {
    /// junctions from this one on have no segments, and are dead ends
    pub dead_from: usize,
    pub may_loop: bool,
    pub from_junctions: usize,
    pub to_junctions: usize,
    pub any_event: usize,
    pub conditions: usize,
    pub actions: usize,
}

impl Wiring {
    pub fn any(random: &mut Random, junctions: usize) -> Wiring {
        let dead_from = if random.percent(50) { junctions } else { random.between(0, junctions) };
        Wiring {
            dead_from,
            may_loop: random.percent(20),
            from_junctions: random.pick(&[25, 45, 60]),
            to_junctions: random.pick(&[10, 35, 60]),
            any_event: random.pick(&[10, 50, 90]),
            conditions: random.pick(&[5, 30, 70]),
            actions: random.pick(&[10, 35, 60]),
        }
    }

    /// Up to so many segments: a chart of one state and no live junction has none.
    pub fn add_segments(&self, random: &mut Random, draft: &mut Draft, pool: &Pool, wanted: usize) {
        for _ in 0..wanted {
            let Some(source) = self.source(random, draft) else { return };
            let Some(destination) = self.destination(random, draft, source) else { continue };
            let event = if random.percent(self.any_event) { 0 } else { random.between(1, draft.events as usize) };
            let blocks = self.blocks(random, pool);
            draft.segments.push(Segment { source, destination, event: event as u8, blocks });
        }
    }

    fn source(&self, random: &mut Random, draft: &Draft) -> Option<End> {
        let states = draft.states.len();
        let junction = self.dead_from > 0 && (states == 1 || random.percent(self.from_junctions));
        if junction {
            Some(from_junction(random.below(self.dead_from)))
        } else if states == 1 {
            None
        } else if random.percent(25) {
            Some(inner(random.between(1, states - 1)))
        } else {
            Some(outer(random.between(1, states - 1)))
        }
    }

    fn destination(&self, random: &mut Random, draft: &Draft, source: End) -> Option<End> {
        let (junctions, states) = (draft.junctions.len(), draft.states.len());
        let from = source.1 as usize;
        // without loops, segments between junctions lead to greater numbers only
        let first = if source == from_junction(from) && !self.may_loop { from + 1 } else { 0 };
        if first < junctions && (states == 1 || random.percent(self.to_junctions)) {
            Some(to_junction(random.between(first, junctions - 1)))
        } else if states == 1 {
            None
        } else if source == from_junction(from) {
            Some(to_state(random.between(1, states - 1)))
        } else {
            Some(to_state(relative(random, draft, from)))
        }
    }

    fn blocks(&self, random: &mut Random, pool: &Pool) -> [Block; 3] {
        let mut blocks = [Block::default(); 3];
        if random.percent(self.conditions) {
            blocks[CONDITION] = pool.condition(random);
        }
        if random.percent(self.actions) {
            blocks[CONDITION_ACTION] = pool.action(random, true);
        }
        if random.percent(self.actions) {
            blocks[TRANSITION_ACTION] = pool.action(random, false);
        }
        blocks
    }
}

/// A state other than the root: the state itself, one above or below it, or any.
fn relative(random: &mut Random, draft: &Draft, state: usize) -> usize {
    let parent = draft.states[state].parent as usize;
    let children = draft.children(state);
    match random.below(100) {
        0..=7 => state,
        8..=17 if parent != 0 => parent,
        18..=22 if parent != 0 => relative(random, draft, parent),
        23..=32 if !children.is_empty() => random.pick(&children),
        33..=37 if !children.is_empty() => {
            let child = random.pick(&children);
            relative(random, draft, child)
        }
        _ => random.between(1, draft.states.len() - 1),
    }
}
