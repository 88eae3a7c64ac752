//! Ways to break the rules of blocks, of instructions, of the stack, and of what is barred where: numbers 8 to 11.
use super::code::write_tower;
use super::random::Random;
use crate::draft::*;

/// Whose block it is.
#[derive(Clone, Copy)]
enum Owner {
    State(usize),
    Segment(usize),
}

impl Owner {
    /// Any but the root, which has no blocks.
    fn any(random: &mut Random, draft: &Draft) -> Owner {
        if random.percent(50) {
            Owner::Segment(random.below(draft.segments.len()))
        } else {
            Owner::State(random.between(1, draft.states.len() - 1))
        }
    }

    fn blocks(self, draft: &mut Draft) -> &mut [Block; 3] {
        match self {
            Owner::State(s) => &mut draft.states[s].blocks,
            Owner::Segment(t) => &mut draft.segments[t].blocks,
        }
    }
}

/// A block past the instructions, an empty one with a start, or one of the root.
pub fn block(random: &mut Random, draft: &mut Draft) {
    let length = draft.code.len();
    let count = random.between(1, length.min(Draft::BLOCK));
    let wrong = match random.below(10) {
        0..=3 => Block::new(length + 1 - count, count),
        4 => Block::new(length, 1),
        5 => Block { start: u16::MAX, count: random.nonzero_byte() },
        6 => Block::new(random.between(1, length), 0),
        7 => Block { start: random.pick(&[1, 256, u16::MAX]), count: 0 },
        _ => {
            let raises = new_block(random, draft, &[raise(1)]);
            draft.states[0].blocks[random.below(3)] = raises;
            return;
        }
    };
    Owner::any(random, draft).blocks(draft)[random.below(3)] = wrong;
}

/// Code behind the rest, or, where it has no place, in place of the last instructions.
fn new_block(random: &mut Random, draft: &mut Draft, code: &[Instruction]) -> Block {
    draft.code.truncate(Draft::CODE - code.len());
    let block = draft.block(code);
    if random.percent(30) && draft.code.len() < Draft::CODE {
        draft.code.push(NOT);
    }
    block
}

/// An instruction that is wrong wherever it stands, among the others or behind them.
pub fn instruction(random: &mut Random, draft: &mut Draft) {
    let wrong = wrong_instruction(random, draft);
    if random.percent(50) && draft.code.len() < Draft::CODE {
        draft.code.push(wrong);
    } else {
        let place = random.below(draft.code.len());
        draft.code[place] = wrong;
    }
}

fn wrong_instruction(random: &mut Random, draft: &Draft) -> Instruction {
    let (variables, outputs, events, states) =
        (draft.variables.len() as u8, draft.outputs, draft.events, draft.states.len() as i16);
    let (mark, not_zero) = (random.nonzero_byte(), random.pick(&[1, -1, 256, i16::MIN]));
    match random.below(10) {
        0 => (random.pick(&[13, 14, 255]), 0, 0),
        1 => (0, mark, random.below(5) as i16),
        2 => (random.pick(&[1, 2]), random.pick(&[variables, variables, 255]), 0),
        3 => (random.pick(&[1, 2]), 0, not_zero),
        4 => (random.between(3, 10) as u8, mark, 0),
        5 => (random.between(3, 10) as u8, 0, not_zero),
        6 => (11, random.pick(&[0, outputs + 1]), 0),
        7 => (11, 1, not_zero),
        8 => (12, random.pick(&[0, events + 1, 255]), 0),
        _ => (12, 1, random.pick(&[states, states, -1, 255, 256, i16::MIN])),
    }
}

/// A block that takes what is not there, has too much on the stack, or ends with too much or too little.
pub fn stack(random: &mut Random, draft: &mut Draft) {
    let (owner, place) = (Owner::any(random, draft), random.below(3));
    let condition = matches!(owner, Owner::Segment(_)) && place == CONDITION;
    let binary = (random.between(3, 9) as u8, 0, 0);
    let code = match random.below(9) {
        0 => vec![binary],
        1 => vec![push(1), binary],
        2 => vec![store(0)],
        3 => vec![NOT],
        4 => vec![push(1), push(1)],
        5 if condition => vec![push(1), store(0)],
        5 => vec![push(1)],
        6 => vec![push(1), store(0), store(0), push(1)],
        _ => Vec::new(),
    };
    let wrong = if code.is_empty() { tower(random, draft, condition) } else { new_block(random, draft, &code) };
    owner.blocks(draft)[place] = wrong;
}

/// One value more than the stack may have, with the end that the place asks for.
fn tower(random: &mut Random, draft: &mut Draft, condition: bool) -> Block {
    let mut code = Draft { variables: draft.variables.clone(), ..Draft::default() };
    write_tower(random, &mut code, Draft::STACK + 1);
    if !condition {
        code.code.push(store(0));
    }
    new_block(random, draft, &code.code)
}

/// A store, raise or send that only its place forbids: the stack use is right.
pub fn barred(random: &mut Random, draft: &mut Draft) {
    let sends = send(1, random.below(draft.states.len()));
    let owner = Owner::any(random, draft);
    let place = match owner {
        Owner::State(_) => random.pick(&[ENTRY, EXIT]),
        Owner::Segment(_) => random.pick(&[CONDITION, CONDITION, TRANSITION_ACTION]),
    };
    let in_condition = matches!(owner, Owner::Segment(_)) && place == CONDITION;
    let code: &[Instruction] = match random.below(3) {
        0 if in_condition => &[push(1), push(2), store(0)],
        1 if in_condition => &[push(1), raise(1)],
        _ if in_condition => &[sends, push(1)],
        0 => &[sends],
        _ => &[raise(1), sends],
    };
    owner.blocks(draft)[place] = new_block(random, draft, code);
}
