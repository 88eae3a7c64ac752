//! Damaged charts: for each number of a chart's refusals, ways to bring it about; and damage done blindly.
use super::damaged_code;
use super::damaged_tables;
use super::random::Random;
use crate::draft::{outer, raise, to_state, Draft, ONE_OF};

/// The numbers that many rules stand behind are brought about more often.
const NUMBERS: [usize; 21] = [1, 2, 3, 3, 4, 5, 5, 6, 6, 6, 7, 7, 8, 8, 9, 9, 10, 10, 10, 11, 11];

/// One number brought about, or two at once, of which the lower has to win.
pub fn targeted(random: &mut Random, draft: &Draft) -> Vec<u8> {
    let mut draft = draft.clone();
    let mut in_bytes = Vec::new();
    for _ in 0..random.pick(&[1, 1, 2]) {
        let number = random.pick(&NUMBERS);
        if !damage_draft(random, &mut draft, number) {
            in_bytes.push(number);
        }
    }
    let mut bytes = draft.bytes();
    for number in in_bytes {
        damage_bytes(random, &draft, &mut bytes, number);
    }
    bytes
}

/// Whether the damage was one to the draft; otherwise it is one to the bytes.
fn damage_draft(random: &mut Random, draft: &mut Draft, number: usize) -> bool {
    if number >= 5 {
        complete(draft);
    }
    match number {
        3 if random.percent(60) => damaged_tables::beyond_limit(random, draft),
        6 => damaged_tables::states(random, draft),
        7 => damaged_tables::segment(random, draft),
        8 => damaged_code::block(random, draft),
        9 => damaged_code::instruction(random, draft),
        10 => damaged_code::stack(random, draft),
        11 => damaged_code::barred(random, draft),
        _ => return false,
    }
    true
}

/// At least one record of each table, so that each can be damaged.
fn complete(draft: &mut Draft) {
    if draft.states.len() == 1 {
        draft.states.clear();
        draft.state(0, ONE_OF, 1).leaves(0, 1);
    }
    if draft.junctions.is_empty() {
        draft.junction(0);
    }
    if draft.segments.is_empty() {
        draft.segment(outer(1), to_state(1), 0);
    }
    if draft.variables.is_empty() {
        draft.variable(0);
    }
    draft.outputs = draft.outputs.max(1);
    if draft.code.is_empty() {
        draft.code.push(raise(1));
    }
}

fn damage_bytes(random: &mut Random, draft: &Draft, bytes: &mut Vec<u8>, number: usize) {
    match number {
        1 => bytes.truncate(random.below(Draft::HEADER)),
        2 if bytes.len() >= 2 => bytes[random.below(2)] ^= random.nonzero_byte(),
        3 if bytes.len() >= Draft::HEADER => wrong_count(random, bytes),
        4 => wrong_length(random, bytes),
        5 => wrong_mark_or_zero(random, draft, bytes),
        _ => (),
    }
}

/// A count out of its range, in one byte or in two.
fn wrong_count(random: &mut Random, bytes: &mut [u8]) {
    const STATES: usize = 2;
    const JUNCTIONS: usize = 3;
    const SEGMENTS: usize = 4;
    const VARIABLES: usize = 6;
    const EVENTS: usize = 7;
    const OUTPUTS: usize = 8;
    const CODE: usize = 10;
    match random.below(8) {
        0 => bytes[random.pick(&[STATES, EVENTS])] = 0,
        1 => bytes[STATES] = random.pick(&[65, 128, 255]),
        2 => bytes[JUNCTIONS] = random.pick(&[65, 255]),
        3 => bytes[SEGMENTS..SEGMENTS + 2].copy_from_slice(&random.pick(&[257, 512, u16::MAX]).to_le_bytes()),
        4 => bytes[VARIABLES] = random.pick(&[33, 255]),
        5 => bytes[EVENTS] = random.pick(&[33, 255]),
        6 => bytes[OUTPUTS] = random.pick(&[33, 255]),
        _ => bytes[CODE..CODE + 2].copy_from_slice(&random.pick(&[1025, 2048, u16::MAX]).to_le_bytes()),
    }
}

fn wrong_length(random: &mut Random, bytes: &mut Vec<u8>) {
    let cut = random.pick(&[1, 1, 2, 6, 18]);
    match random.below(4) {
        0 => bytes.truncate(bytes.len().saturating_sub(cut)),
        1 => bytes.truncate(random.between(Draft::HEADER, bytes.len().max(Draft::HEADER))),
        2 => {
            let more = random.pick(&[1, 1, 4, 6, 16, 18, 13_000, 65_536]);
            bytes.extend(random.bytes(more));
        }
        _ if bytes.len() >= Draft::HEADER => {
            // a record more or less than there is, or than can be
            let place = random.pick(&[2, 3, 4, 6, 10]);
            bytes[place] = bytes[place].wrapping_add(random.pick(&[1, 255]));
        }
        _ => bytes.clear(),
    }
}

/// The header's zero byte, or a mark or a zero byte of any record that was not cut off.
fn wrong_mark_or_zero(random: &mut Random, draft: &Draft, bytes: &mut [u8]) {
    const HEADER_ZERO: usize = 9;
    let table = random.pick(&draft.tables());
    let record = table.at + table.length * random.below(table.count);
    let places = [&[0, 1], table.zeros].concat();
    let place = if random.one_in(12) { HEADER_ZERO } else { record + random.pick(&places) };
    if let Some(byte) = bytes.get_mut(place) {
        *byte ^= random.nonzero_byte();
    }
}

/// Some bytes changed, cut off or added, wherever it happens to be.
pub fn blind(random: &mut Random, draft: &Draft) -> Vec<u8> {
    let mut bytes = draft.bytes();
    for _ in 0..random.between(1, 4) {
        let at = random.below(bytes.len());
        match random.below(10) {
            0..=3 => bytes[at] = random.byte(),
            4..=6 => bytes[at] ^= 1 << random.below(8),
            7..=8 => bytes[at] = bytes[at].wrapping_add(random.pick(&[1, 255])),
            _ => bytes[at] = 0,
        }
    }
    match random.below(20) {
        0 => bytes.truncate(random.below(bytes.len() + 1)),
        1 => bytes.push(random.byte()),
        _ => (),
    }
    bytes
}
