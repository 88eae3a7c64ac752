//! Valid charts in which much happens: moves while others have yet to be run, webs of junctions, arithmetic, deep trees.
use super::charts;
use super::code::any_value;
use super::random::Random;
use super::trees;
use super::wiring::Wiring;
use crate::draft::*;

pub fn any(random: &mut Random) -> Draft {
    match random.below(100) {
        0..=19 => crossing(random),
        20..=29 => hand_down(random),
        30..=49 => wings(random),
        50..=74 => web(random),
        75..=89 => arithmetic(random),
        _ => tall(random),
    }
}

/// States that send event 2, on which most of them move: owners are left, are entered again, or stay while others go.
fn crossing(random: &mut Random) -> Draft {
    let count = random.between(3, 9);
    let mut draft = Draft { states: trees::grow(random, count), events: 3, outputs: 2, ..Draft::default() };
    draft.junctions = vec![random.below(count) as u8; 2];
    for s in 1..count {
        let [any, other] = [1, 2].map(|_| random.between(1, count - 1));
        let receiver = random.pick(&[0, draft.states[s].parent as usize, any]);
        let sends = draft.block(&[raise(1), send(2, receiver), raise(2)]);
        // what has children of its own mostly leaves it to them to move
        let moving = if draft.states[s].kind == LEAF { 85 } else { 35 };
        if random.percent(moving) {
            draft.segment(outer(s), to_state(any), 2);
        }
        if random.percent(25) {
            draft.states[s].blocks[DURING] = sends;
        } else if random.percent(60) {
            let source = random.pick(&[outer(s), outer(s), inner(s), from_junction(0)]);
            let destination = random.pick(&[to_state(s), to_state(other), to_junction(0), to_junction(1)]);
            draft.segment(source, destination, random.pick(&[1, 3])).condition_action(sends);
        }
    }
    draft.segment(from_junction(0), to_state(random.between(1, count - 1)), 0);
    draft
}

/// Regions whose leaf sends to the next, and the last to any: a sender that moves is then gone while sends further out are open.
fn hand_down(random: &mut Random) -> Draft {
    let regions = random.between(2, 6);
    let mut draft = Draft::over_leaves(ALL_OF, regions);
    draft.junction(0).junction(0);
    for region in 1..=regions {
        let (leaf, aside) = (draft.states.len(), draft.states.len() + 1);
        draft.states[region] = State { kind: ONE_OF, initial: leaf as u8, ..State::default() };
        draft.leaves(region, 2);
        let next_leaf = leaf + 2;
        let any = random.below(regions + 1);
        let (event, receiver) = if region == regions { (3, any) } else { (2, random.pick(&[region + 1, next_leaf])) };
        let sends = draft.block(&[raise(1), send(event, receiver), raise(2)]);
        if random.percent(80) {
            draft.segment(outer(leaf), to_state(aside), 3);
        }
        draft.segment(outer(aside), to_state(leaf), 1);
        let source = random.pick(&[outer(leaf), inner(leaf)]);
        let end = random.pick(&[to_state(aside), to_junction(1)]);
        match random.below(3) {
            0 => draft.states[leaf].blocks[DURING] = sends,
            1 => _ = draft.segment(source, end, 0).condition_action(sends),
            _ => {
                let way = draft.junctions.len();
                draft.junction(0).segment(source, to_junction(way), 0);
                draft.segment(from_junction(way), end, 0).condition_action(sends);
            }
        }
    }
    draft
}

/// States side by side, each over leaves that move within it and across: what an all-of state has yet to run may be left by then.
fn wings(random: &mut Random) -> Draft {
    let wings = random.between(2, 3);
    // the kinds are settled when all children are there
    let mut draft = Draft::over_leaves(LEAF, wings);
    for wing in 1..=wings {
        draft.leaves(wing, random.between(2, 3));
    }
    (0..=wings).for_each(|s| trees::settle(random, &mut draft, s));
    let last = draft.states.len() - 1;
    for leaf in wings + 1..=last {
        draft.segment(outer(leaf), to_state(random.between(1, last)), random.below(3));
    }
    for _ in 0..random.between(0, 3) {
        let wing = random.between(1, wings);
        draft.segment(random.pick(&[outer(wing), inner(wing)]), to_state(random.between(1, last)), 3);
    }
    draft
}

/// Junctions by which many ways lead on, most of them for a while only.
fn web(random: &mut Random) -> Draft {
    let (states, junctions) = (random.between(3, 9), random.between(3, 8));
    let mut draft = Draft { states: trees::grow(random, states), events: 2, outputs: 2, ..Draft::default() };
    draft.junctions = (0..junctions).map(|_| random.below(states) as u8).collect();
    draft.variables = (0..4).map(|_| any_value(random)).collect();
    let wiring = Wiring {
        dead_from: junctions - random.below(2),
        may_loop: random.percent(20),
        from_junctions: 60,
        to_junctions: 55,
        any_event: 80,
        conditions: random.pick(&[20, 50]),
        actions: 40,
    };
    let segments = random.between(12, 40);
    charts::furnish(random, &mut draft, &wiring, 80, segments);
    draft
}

/// Leaves that go round, each of which computes with values where results leave the range or change sign.
fn arithmetic(random: &mut Random) -> Draft {
    const VALUES: [i32; 16] =
        [i32::MIN, i32::MIN + 1, i32::MAX, i32::MAX - 1, -1, -1, 0, 1, 2, -2, 7, -7, 46_340, 46_341, -46_341, 1 << 30];
    const OPS: [Instruction; 8] = [ADD, SUBTRACT, MULTIPLY, QUOTIENT, REMAINDER, LESS, EQUAL, NOT];
    const LOWEST: usize = 0; // a variable with the lowest value
    let leaves = random.between(1, 6);
    let mut draft = Draft::over_leaves(ONE_OF, leaves);
    draft.variables = (0..8).map(|_| random.pick(&VALUES)).collect();
    draft.variables[LOWEST] = i32::MIN;
    for leaf in 1..=leaves {
        let corner = random.percent(20); // where quotient and remainder part
        let mut operand = || if random.percent(85) { load(random.below(8)) } else { push(random.below(7) as i16 - 3) };
        let (lower, top) = if corner { (load(LOWEST), push(-1)) } else { (operand(), operand()) };
        let (op, result) = (random.pick(&OPS), store(random.below(8)));
        let binary = [lower, top, op, result];
        let computes = draft.block(if op == NOT { &binary[1..] } else { &binary });
        let condition = Block { count: computes.count - 1, ..computes };
        draft.states[leaf].blocks[random.pick(&[ENTRY, DURING, EXIT])] = computes;
        draft.segment(outer(leaf), to_state(leaf % leaves + 1), random.below(3));
        draft.segment_block(random.pick(&[CONDITION_ACTION, TRANSITION_ACTION]), computes);
        if random.percent(40) {
            draft.condition(condition);
        }
    }
    draft
}

/// As deep as a chart may be.
fn tall(random: &mut Random) -> Draft {
    loop {
        let mut draft = charts::valid(random);
        if draft.states.len() + Draft::DEPTH <= Draft::STATES && draft.segments.len() + Draft::DEPTH <= Draft::SEGMENTS {
            trees::deepen(&mut draft, Draft::DEPTH);
            for _ in 0..Draft::DEPTH {
                let deep = draft.states.len() - random.between(1, Draft::DEPTH);
                let any = random.between(1, draft.states.len() - 1);
                draft.segment(random.pick(&[outer(any), outer(deep), inner(deep)]), to_state(random.pick(&[any, deep])), 0);
            }
            return draft;
        }
    }
}
