//! Random code: pieces that stand one behind the other, so that blocks share instructions and overlap.
use super::random::Random;
use crate::draft::*;

/// Instructions that need nothing on the stack: first those that leave one value, then the one that takes it, or a raise or send.
struct Piece {
    start: usize,
    value: usize,
    length: usize,
    sends: bool,
}

pub struct Pool {
    pieces: Vec<Piece>,
}

impl Pool {
    /// New code for the draft, about as long as wanted; of a hundred pieces so many are sends.
    pub fn write(random: &mut Random, draft: &mut Draft, wanted: usize, sends: usize) -> Pool {
        // the longest piece is a tower with its store, and two instructions between
        const LONGEST: usize = 2 * Draft::STACK + 2;
        let mut pieces = Vec::new();
        while draft.code.len() < wanted && draft.code.len() + LONGEST <= Draft::CODE {
            pieces.push(write_piece(random, draft, sends));
        }
        Pool { pieces }
    }

    /// A condition with instructions, if there is one.
    pub fn condition(&self, random: &mut Random) -> Block {
        let valued: Vec<&Piece> = self.pieces.iter().filter(|piece| piece.value > 0).collect();
        if valued.is_empty() {
            return Block::default();
        }
        let piece = random.pick(&valued);
        block_at(piece.start, piece.value)
    }

    /// One piece after another, as far as they are allowed; none for an empty block.
    pub fn action(&self, random: &mut Random, may_send: bool) -> Block {
        if self.pieces.is_empty() {
            return Block::default();
        }
        let first = random.below(self.pieces.len());
        let most = if random.one_in(25) { 60 } else { 3 };
        let wanted = random.between(1, most);
        let mut count = 0;
        for piece in self.pieces[first..].iter().take(wanted) {
            let leaves_nothing = piece.value < piece.length;
            if !leaves_nothing || piece.sends && !may_send || count + piece.length > Draft::BLOCK {
                break;
            }
            count += piece.length;
        }
        block_at(self.pieces[first].start, count)
    }
}

fn block_at(start: usize, count: usize) -> Block {
    if count == 0 {
        Block::default()
    } else {
        Block::new(start, count)
    }
}

fn write_piece(random: &mut Random, draft: &mut Draft, sends: usize) -> Piece {
    let start = draft.code.len();
    if random.percent(sends) {
        let (event, state) = (random.between(1, draft.events as usize), random.below(draft.states.len()));
        draft.code.push(send(event, state));
        return Piece { start, value: 0, length: 1, sends: true };
    }
    if draft.outputs > 0 && random.percent(35) {
        draft.code.push(raise(random.between(1, draft.outputs as usize)));
        return Piece { start, value: 0, length: 1, sends: false };
    }
    if random.one_in(60) {
        write_tower(random, draft, Draft::STACK);
    } else {
        let size = random.between(1, 6);
        write_value(random, draft, size);
    }
    let value = draft.code.len() - start;
    let mut sent = false;
    if !draft.variables.is_empty() {
        if random.one_in(4) {
            sent = write_between(random, draft, sends);
        }
        draft.code.push(store(random.below(draft.variables.len())));
    }
    Piece { start, value, length: draft.code.len() - start, sends: sent }
}

/// An instruction or two for which the value before waits on the stack; whether one is a send.
fn write_between(random: &mut Random, draft: &mut Draft, sends: usize) -> bool {
    if random.percent(3 * sends) {
        draft.code.push(send(random.between(1, draft.events as usize), random.below(draft.states.len())));
        return true;
    }
    if draft.outputs > 0 && random.percent(50) {
        draft.code.push(raise(random.between(1, draft.outputs as usize)));
    } else {
        let leaf = any_leaf(random, draft);
        draft.code.extend([leaf, store(random.below(draft.variables.len()))]);
    }
    false
}

/// Instructions that leave one value; a size of at most 6 keeps far from the stack's end.
fn write_value(random: &mut Random, draft: &mut Draft, size: usize) {
    const BINARY: [Instruction; 12] =
        [ADD, ADD, SUBTRACT, SUBTRACT, MULTIPLY, QUOTIENT, REMAINDER, LESS, LESS, LESS, EQUAL, EQUAL];
    if size <= 1 {
        let leaf = any_leaf(random, draft);
        draft.code.push(leaf);
    } else if random.percent(15) {
        write_value(random, draft, size - 1);
        draft.code.push(NOT);
    } else {
        let left = random.between(1, size - 1);
        write_value(random, draft, left);
        write_value(random, draft, size - left);
        draft.code.push(random.pick(&BINARY));
    }
}

fn any_leaf(random: &mut Random, draft: &Draft) -> Instruction {
    const WIDE: [i16; 7] = [i16::MIN, i16::MAX, -256, 255, 256, 1000, -1000];
    if !draft.variables.is_empty() && random.percent(55) {
        load(random.below(draft.variables.len()))
    } else if random.percent(12) {
        push(random.pick(&WIDE))
    } else {
        push(random.below(9) as i16 - 3)
    }
}

/// As many values as the height, one on the other, and then all made one.
pub fn write_tower(random: &mut Random, draft: &mut Draft, height: usize) {
    for _ in 0..height {
        let leaf = any_leaf(random, draft);
        draft.code.push(leaf);
    }
    for _ in 1..height {
        draft.code.push(random.pick(&[LESS, EQUAL, ADD, SUBTRACT]));
    }
}

/// A value as variables have it at first: often small, sometimes at an end of the range.
pub fn any_value(random: &mut Random) -> i32 {
    const ENDS: [i32; 9] = [i32::MIN, i32::MIN + 1, i32::MAX, i32::MAX - 1, 46_341, -46_341, 65_536, -65_536, 1 << 30];
    match random.below(100) {
        0..=6 => random.pick(&ENDS),
        7..=9 => random.word() as i32,
        _ => random.below(11) as i32 - 4,
    }
}
