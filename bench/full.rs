//! The charts of which every table is full.
use crate::charts::{odd, tick, Case};
use crate::draft::*;

/// Seven regions of eight leaves side by side, each with nine junctions.
fn seven_regions() -> Draft {
    let mut draft = Draft::new(32, 32);
    draft.state(0, ALL_OF, 0);
    for r in 1..8 {
        draft.state(0, ONE_OF, 8 * r).history();
    }
    for r in 1..8 {
        draft.leaves(r, 8);
    }
    draft.junctions = (0..64).map(|j| (1 + j / 9) % 8).collect();
    draft.variables = (0..32).collect();
    draft
}

/// Every table full, with blocks of about so many instructions. They overlap: the longer they are, the more there is to check.
pub fn overlapping(count: usize) -> Case {
    let mut draft = seven_regions();
    // push and store in turn for the actions; a push and then nots for the conditions
    draft.code = (0..256).flat_map(|n| [push(1), store(n % 32)]).collect();
    let action = |n: usize| Block::new(2 * (n % 64), count / 2 * 2);
    let condition = Block::new(draft.code.len(), count);
    draft.code.push(push(1));
    draft.code.extend([NOT; 511]);
    for s in 1..64 {
        draft.states[s].blocks = [action(s), action(s + 1), action(s + 2)];
    }
    for t in 0..256 {
        let leaf = 8 + t % 56;
        draft.segment(outer(leaf), to_state(leaf), 0).condition(condition);
        draft.condition_action(action(t)).transition_action(action(t));
    }
    Case::new(draft.bytes(), vec![1])
}

/// Every table full, and much to do.
pub fn largest() -> Case {
    let mut draft = seven_regions();
    let asks: Vec<Block> = (0..64).map(|j| draft.block(&odd(j % 32))).collect();
    let counts: Vec<Block> = (0..64).map(|j| draft.block(&[load(j % 32), push(1), ADD, store(j % 32)])).collect();
    from_leaves(&mut draft, &asks, &counts);
    for r in 1..8 {
        // a region onto itself: all seven are left and entered
        draft.segment(outer(r), to_state(r), 4 * r).transition_action(counts[r]);
        draft.segment(inner(r), to_state(8 * r + 5), 3 * r).condition(asks[r]);
    }
    draft.segment(inner(8), to_state(9), 31).segment(inner(16), to_state(17), 31);
    from_junctions(&mut draft, &asks, &counts);
    for s in 1..64 {
        draft.states[s].blocks[DURING] = draft.block(&tick(s % 32, s));
    }
    // what is left of the 1,024 instructions
    let raises: Vec<Block> = (0..69).map(|n| draft.block(&[raise(1 + n % 32)])).collect();
    for s in 1..64 {
        draft.states[s].blocks[ENTRY] = raises[s];
        draft.states[s].blocks[EXIT] = raises[s + 5];
    }
    let bytes = draft.bytes();
    assert_eq!(bytes.len(), 12_236);
    Case::new(bytes, (1..=32).collect())
}

/// Each leaf has a segment to the next leaf of its region and one to a junction.
fn from_leaves(draft: &mut Draft, asks: &[Block], counts: &[Block]) {
    let sends: Vec<Block> = (0..3).map(|n| draft.block(&[send(32, 2 * n + 2)])).collect();
    for leaf in 8..64 {
        let (r, k) = (leaf / 8, leaf % 8);
        draft.segment(outer(leaf), to_state(8 * r + (k + 1) % 8), 1 + leaf % 32).transition_action(counts[leaf]);
        // regions 1, 3 and 5 send to 2, 4 and 6, which send no further
        let sending = k % 4 == 0 && r % 2 == 1 && r < 7;
        let action = if sending { sends[r / 2] } else { counts[leaf] };
        draft.segment(outer(leaf), to_junction(9 * (r - 1) + k % 4), 0).condition_action(action);
        if k % 2 == 1 {
            draft.condition(asks[leaf]);
        }
    }
}

/// Four junctions of a region lead on to the five others, and these to its leaves; the last junction is nobody's.
fn from_junctions(draft: &mut Draft, asks: &[Block], counts: &[Block]) {
    for j in 0..64 {
        let (r, n) = (1 + j / 9, j % 9);
        let (if_odd, otherwise) = match (r, n) {
            (8, _) => (to_state(8), to_state(16)),
            (_, 0..=3) => (to_junction(j + 4), to_junction(j + 5)),
            _ => (to_state(8 * r + 2 * n % 8), to_state(8 * r + (2 * n + 3) % 8)),
        };
        draft.segment(from_junction(j), if_odd, 0).condition(asks[j]).transition_action(counts[j]);
        draft.segment(from_junction(j), otherwise, 0).condition_action(counts[j]);
    }
}
