//! Charts for the bound call: bounds just under and over the limit, and weights beyond any number of 64 bits.
use super::random::Random;
use crate::draft::*;

/// A ladder of junctions, two segments from each to the next, weighs twice as much at each step; segments to its steps, the
/// heaviest first, and at last such to a state make up any sum.
pub fn exact(random: &mut Random) -> Draft {
    const LIMIT: usize = 1_000_000;
    let wanted = random.pick(&[LIMIT - 1, LIMIT, LIMIT, LIMIT + 1, LIMIT + 1, 2 * LIMIT]);
    let mut draft = Draft::over_leaves(ONE_OF, random.between(1, 5));
    let states = draft.states.len();
    let steps = random.between(14, 17);
    draft.junctions = vec![0; steps];
    // what a segment to each step weighs
    let mut weights = vec![2];
    draft.segment(from_junction(0), to_state(1), 0);
    for j in 1..steps {
        draft.segment(from_junction(j), to_junction(j - 1), 0).segment(from_junction(j), to_junction(j - 1), 0);
        weights.push(1 + 2 * weights[j - 1]);
    }
    // each state is run once, and G is two for each state
    let mut rest = wanted - states * (1 + 2 * states);
    while rest > 0 {
        let place = if random.percent(50) { outer(random.between(1, states - 1)) } else { inner(random.between(1, states - 1)) };
        let step = (0..steps).rev().find(|&j| weights[j] <= rest);
        draft.segment(place, step.map_or(to_state(1), to_junction), random.below(4));
        rest -= step.map_or(1, |j| weights[j]);
    }
    draft
}

/// A chain of junctions, up or down their numbers, and half of the time a segment back within it: a loop of any length.
pub fn chain(random: &mut Random) -> Draft {
    let mut draft = Draft::over_leaves(ONE_OF, 2);
    let steps = random.between(2, Draft::JUNCTIONS);
    draft.junctions = vec![0; steps];
    let upwards = random.percent(50);
    let junction = |step: usize| if upwards { step } else { steps - 1 - step };
    for step in 1..steps {
        draft.segment(from_junction(junction(step - 1)), to_junction(junction(step)), 0);
    }
    draft.segment(outer(1), to_junction(junction(0)), 0);
    if random.percent(50) {
        let (one, other) = (random.below(steps), random.below(steps));
        draft.segment(from_junction(junction(one.max(other))), to_junction(junction(one.min(other))), 1);
    }
    draft.segment(from_junction(junction(steps - 1)), to_state(2), 0);
    draft
}

/// A ladder with up to four segments at each step: as heavy as a chart can be.
pub fn huge(random: &mut Random) -> Draft {
    let mut draft = Draft::over_leaves(ONE_OF, 1);
    let (steps, width) = (random.between(20, Draft::JUNCTIONS), random.between(2, 4));
    draft.junctions = vec![0; steps];
    for j in 1..steps {
        for _ in 0..width {
            draft.segment(from_junction(j), to_junction(j - 1), 1);
        }
    }
    if random.percent(70) {
        draft.segment(outer(1), to_junction(steps - 1), 2);
    }
    draft
}
