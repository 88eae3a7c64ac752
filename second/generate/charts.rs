//! Random charts of every size: valid ones with every feature, the special shapes, damaged ones and noise.
use super::code::{any_value, Pool};
use super::damage;
use super::lively;
use super::random::Random;
use super::shapes;
use super::trees;
use super::wiring::Wiring;
use crate::draft::*;
use std::rc::Rc;

/// The bytes of a chart, and the valid draft behind them.
pub struct Chart {
    pub draft: Draft,
    pub bytes: Rc<[u8]>,
    /// the bytes are those of the draft
    pub whole: bool,
    /// how many calls it is worth
    pub calls: usize,
}

pub fn any(random: &mut Random) -> Chart {
    match random.below(100) {
        0..=20 => whole(valid(random), random.between(5, 20)),
        21..=34 => whole(lively::any(random), random.between(5, 20)),
        35..=45 => {
            let (draft, calls) = shapes::any(random);
            whole(draft, calls)
        }
        46..=89 => broken(random, damage::targeted),
        90..=97 => broken(random, damage::blind),
        _ => broken(random, |random, _| {
            let length = random.pick(&[0, 11, 12, 40, 300]);
            random.bytes(length)
        }),
    }
}

fn whole(draft: Draft, calls: usize) -> Chart {
    Chart { bytes: draft.bytes().into(), draft, whole: true, calls }
}

fn broken(random: &mut Random, damaged: fn(&mut Random, &Draft) -> Vec<u8>) -> Chart {
    let draft = valid(random);
    let bytes = damaged(random, &draft).into();
    Chart { bytes, draft, whole: false, calls: random.pick(&[1, 2, 2, 3]) }
}

/// A valid chart, most often a small one.
pub fn valid(random: &mut Random) -> Draft {
    let scale = match random.below(1000) {
        0..=449 => 4,
        450..=849 => 8,
        850..=984 => 20,
        985..=997 => 64,
        _ => return full(random),
    };
    let states = count(random, scale, Draft::STATES - 1) + 1;
    let mut draft = Draft { states: trees::grow(random, states), ..Draft::default() };
    for _ in 0..count(random, scale / 2, Draft::JUNCTIONS) {
        draft.junction(random.below(states));
    }
    for _ in 0..count(random, scale / 2, Draft::VARIABLES) {
        draft.variable(any_value(random));
    }
    draft.events = count(random, 2, Draft::EVENTS - 1) as u8 + 1;
    draft.outputs = count(random, 3, Draft::OUTPUTS) as u8;
    let (code, segments) = (count(random, 8 * scale, Draft::CODE), count(random, 4 * scale, Draft::SEGMENTS));
    let wiring = Wiring::any(random, draft.junctions.len());
    furnish(random, &mut draft, &wiring, code, segments);
    draft
}

/// A count of a table: within the scale as a rule, anything up to the limit or the limit itself now and then.
fn count(random: &mut Random, scale: usize, limit: usize) -> usize {
    match random.below(200) {
        0 => limit,
        1..=2 => random.between(0, limit),
        _ => random.between(0, scale.min(limit)),
    }
}

/// Every table as long as it may be.
fn full(random: &mut Random) -> Draft {
    let mut draft = Draft { states: trees::grow(random, Draft::STATES), ..Draft::default() };
    draft.junctions = (0..Draft::JUNCTIONS).map(|_| random.below(Draft::STATES) as u8).collect();
    draft.variables = (0..Draft::VARIABLES).map(|_| any_value(random)).collect();
    draft.events = Draft::EVENTS as u8;
    draft.outputs = Draft::OUTPUTS as u8;
    let wiring = Wiring::any(random, Draft::JUNCTIONS);
    furnish(random, &mut draft, &wiring, Draft::CODE, Draft::SEGMENTS);
    draft
}

/// Code, segments and blocks for a draft that has its other tables.
pub fn furnish(random: &mut Random, draft: &mut Draft, wiring: &Wiring, code: usize, segments: usize) {
    let sends = random.pick(&[0, 0, 0, 3, 3, 10, 40]);
    let pool = Pool::write(random, draft, code, sends);
    if code == Draft::CODE {
        // the pieces stop short of the limit; these belong to no block
        draft.code.resize(Draft::CODE, push(0));
    }
    wiring.add_segments(random, draft, &pool, segments);
    for state in &mut draft.states[1..] {
        for (place, block) in state.blocks.iter_mut().enumerate() {
            if random.percent(wiring.actions) {
                let may_send = place == DURING && random.percent(30);
                *block = pool.action(random, may_send);
            }
        }
    }
}
