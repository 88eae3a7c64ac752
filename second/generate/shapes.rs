//! Valid charts of special shapes, which meet the limits of paths, sends, items and bounds exactly, and one beyond.
use super::random::Random;
use super::weights;
use crate::draft::*;

/// A chart of a special shape, and how many calls it is worth.
pub fn any(random: &mut Random) -> (Draft, usize) {
    match random.below(100) {
        0..=19 => (counted_loop(random), 8),
        20..=31 => (two_loops(random), 6),
        32..=51 => (chain_of_sends(random), 8),
        52..=64 => (many_items(random), 8),
        65..=67 => (long_work(random), 3),
        68..=84 => (weights::exact(random), 2),
        85..=92 => (weights::chain(random), 4),
        _ => (weights::huge(random), 2),
    }
}

/// From this state to this junction, and so many times round it, with a variable of its own to count by.
fn go_round(draft: &mut Draft, state: usize, junction: usize, rounds: usize) {
    let counter = draft.variables.len();
    draft.variable(0);
    draft.segment(outer(state), to_junction(junction), 0).condition_action(&[push(0), store(counter)]);
    draft.segment(from_junction(junction), to_junction(junction), 0);
    draft.condition(&[load(counter), push(rounds as i16), LESS]);
    draft.condition_action(&[load(counter), push(1), ADD, store(counter)]);
}

/// A path as long as a path may be, a little shorter or longer, that ends on a state, at a dead end or nowhere.
fn counted_loop(random: &mut Random) -> Draft {
    let mut draft = Draft::over_leaves(ONE_OF, 2);
    draft.junctions = vec![0, random.below(3) as u8];
    if random.percent(15) {
        draft.segment(outer(1), to_junction(0), 0);
        draft.segment(from_junction(0), to_junction(0), random.below(2));
        return draft;
    }
    // with the way there and the way on, 126 rounds make the longest path
    let any = random.between(0, 125);
    go_round(&mut draft, 1, 0, random.pick(&[any, 123, 124, 125, 126, 127, 127, 128]));
    let destination = random.pick(&[to_state(1), to_state(2), to_junction(1), to_junction(1), to_junction(1)]);
    draft.segment(from_junction(0), destination, 0);
    if random.percent(30) {
        draft.segment(from_junction(1), to_state(2), 0).condition(&[push(0)]);
    }
    draft.segment(outer(2), to_state(1), 0);
    draft
}

/// Two loops that together are longer than a path may be: the second after the first was given up, or in a send's own path.
fn two_loops(random: &mut Random) -> Draft {
    let mut draft = Draft::over_leaves(ALL_OF, 2);
    draft.junctions = vec![0, 0, 0];
    let (first, second) = (random.between(50, 110), random.between(50, 110));
    go_round(&mut draft, 1, 0, first);
    if random.percent(50) {
        go_round(&mut draft, 1, 1, second);
    } else {
        go_round(&mut draft, 2, 1, second);
        draft.segment(from_junction(0), to_junction(2), 0).condition_action(&[send(1, 2)]);
    }
    draft.segment(from_junction(1), random.pick(&[to_junction(2), to_state(2)]), 0);
    draft
}

/// Leaves that send to the next one, as many as may be open or some more or less; the last one sends to any state.
fn chain_of_sends(random: &mut Random) -> Draft {
    let leaves = random.pick(&[6, 8, 9, 9, 9, 10]);
    let mut draft = Draft::over_leaves(ALL_OF, leaves);
    let (parent, inactive) = (leaves + 1, leaves + 3);
    draft.state(0, ONE_OF, parent + 1).leaves(parent, 2).junction(0);
    for leaf in 1..=leaves {
        let last = leaf == leaves;
        let any = random.below(draft.states.len());
        let receiver = if last { random.pick(&[inactive, any]) } else { leaf + 1 };
        let sends = if last && random.percent(25) { raise(2) } else { send(random.between(1, 2), receiver) };
        let block = draft.block(&[sends, raise(1)]);
        if random.percent(80) {
            draft.states[leaf].blocks[DURING] = block;
        } else {
            let end = random.pick(&[to_junction(0), to_state(leaf), to_state(inactive)]);
            draft.segment(outer(leaf), end, random.below(2)).condition_action(block);
        }
    }
    draft
}

/// A move with about as many items as a trace has room for, raised on the way out, on the path and on the way in.
fn many_items(random: &mut Random) -> Draft {
    // the root's during point, the segment passed, the state left, the transition action, the state entered
    const WITHOUT_RAISES: usize = 5;
    const ROOM: usize = 256;
    let mut draft = Draft::over_leaves(ONE_OF, 2);
    draft.code = (0..Draft::BLOCK).map(|_| raise(random.between(1, 2))).collect();
    let raises = random.pick(&[ROOM - 1, ROOM, ROOM, ROOM + 1, ROOM + 1, ROOM + 2]) - WITHOUT_RAISES;
    let out = random.between(0, raises);
    let on_the_path = random.between(0, raises - out);
    let mut part = |count: usize| {
        let start = if count == 0 { 0 } else { random.between(0, Draft::BLOCK - count) };
        Block::new(start, count)
    };
    let parts = [part(out), part(on_the_path), part(raises - out - on_the_path)];
    for (from, to) in [(1, 2), (2, 1)] {
        draft.states[from].blocks[EXIT] = parts[0];
        draft.segment(outer(from), to_state(to), 0).transition_action(parts[1]);
        draft.states[to].blocks[ENTRY] = parts[2];
    }
    draft
}

/// Long conditions that do not hold, tried again in each round of a loop: units by the hundred thousand, and few items.
fn long_work(random: &mut Random) -> Draft {
    let mut draft = Draft::over_leaves(ONE_OF, 1);
    draft.junctions = vec![0];
    let mut code = vec![push(0)];
    for _ in 0..random.between(60, 127) {
        code.extend([push(1), MULTIPLY]);
    }
    let never = draft.block(&code);
    for _ in 0..random.between(10, 80) {
        draft.segment(from_junction(0), to_state(1), 0).condition(never);
    }
    go_round(&mut draft, 1, 0, random.between(20, 120));
    draft
}
