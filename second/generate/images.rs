//! Images of a lift: random accepted ones, and damage to an image, targeted and blind.
use super::code::any_value;
use super::random::Random;
use crate::draft::{Draft, ONE_OF};

pub const IMAGE: usize = 202;
const ACTIVE: usize = 2;
pub const HISTORY: usize = 10;
const VARIABLES: usize = 74;

/// A started image as no series of steps may reach it, and accepted all the same.
pub fn accepted(random: &mut Random, draft: &Draft) -> [u8; IMAGE] {
    let mut image = [0; IMAGE];
    image[..ACTIVE].copy_from_slice(b"IM");
    activate(random, draft, &mut image, 0);
    for s in (0..draft.states.len()).filter(|&s| draft.states[s].history == 1) {
        if random.percent(60) {
            image[HISTORY + s] = random.pick(&draft.children(s)) as u8;
        }
    }
    for v in 0..draft.variables.len() {
        let value = if random.percent(50) { draft.variables[v] } else { any_value(random) };
        set_variable(&mut image, v, value);
    }
    image
}

fn activate(random: &mut Random, draft: &Draft, image: &mut [u8], s: usize) {
    set_active(image, s, true);
    let mut children = draft.children(s);
    if draft.states[s].kind == ONE_OF {
        children = vec![random.pick(&children)];
    }
    for child in children {
        activate(random, draft, image, child);
    }
}

fn set_active(image: &mut [u8], s: usize, active: bool) {
    let bit = 1 << (s % 8);
    if active {
        image[ACTIVE + s / 8] |= bit;
    } else {
        image[ACTIVE + s / 8] &= !bit;
    }
}

fn set_variable(image: &mut [u8], v: usize, value: i32) {
    image[VARIABLES + 4 * v..VARIABLES + 4 * v + 4].copy_from_slice(&value.to_le_bytes());
}

/// Another image: with the wrong mark, wrong bits, a wrong record, something beyond the counts, or only with other contents.
pub fn damage(random: &mut Random, draft: &Draft, image: &mut [u8]) {
    match random.below(100) {
        0..=6 => image[random.below(ACTIVE)] ^= random.nonzero_byte(),
        7..=36 => damage_active(random, draft, image),
        37..=59 => damage_history(random, draft, image),
        60..=69 => damage_variable(random, draft, image),
        70..=79 => {
            for _ in 0..random.between(1, 3) {
                image[random.below(IMAGE)] ^= 1 << random.below(8);
            }
        }
        80..=82 => image.copy_from_slice(&random.bytes(IMAGE)),
        _ => image.copy_from_slice(&accepted(random, draft)),
    }
}

/// A child too many or too few, one under an inactive state, a bit beyond the states, no root, or nothing at all.
fn damage_active(random: &mut Random, draft: &Draft, image: &mut [u8]) {
    let count = draft.states.len();
    let any = random.below(count);
    match random.below(8) {
        0..=1 => set_active(image, any, true),
        2..=3 => set_active(image, any, false),
        4 => set_active(image, random.between(count - 1, Draft::STATES - 1), true),
        5 => set_active(image, 0, false),
        6 => image[ACTIVE..HISTORY].fill(0),
        _ => {
            // the only one of its siblings to be active, as one-of asks, without regard for what is below
            let siblings = draft.children(draft.states[any].parent as usize);
            siblings.into_iter().for_each(|s| set_active(image, s, s == any));
        }
    }
}

/// A record of a child or of any other state, for a state that keeps history or for any other.
fn damage_history(random: &mut Random, draft: &Draft, image: &mut [u8]) {
    let count = draft.states.len();
    let any = random.below(count);
    let keeping: Vec<usize> = (0..count).filter(|&s| draft.states[s].history == 1).collect();
    let keeper = if keeping.is_empty() { any } else { random.pick(&keeping) };
    let children = draft.children(keeper);
    match random.below(6) {
        0 if !children.is_empty() => image[HISTORY + keeper] = random.pick(&children) as u8,
        1 => image[HISTORY + keeper] = random.pick(&[any, any, any, keeper, count, 255]) as u8,
        2 => image[HISTORY + random.between(count - 1, Draft::STATES - 1)] = random.pick(&[1, any as u8]),
        3 => image[HISTORY + keeper] = draft.children(any).first().map_or(0, |&child| child as u8),
        4 => image[HISTORY + any] = draft.children(any).first().map_or(1, |&child| child as u8),
        _ => {
            image[ACTIVE..HISTORY].fill(0);
            image[HISTORY + keeper] = children.last().map_or(0, |&child| child as u8);
        }
    }
}

/// Another value, or one beyond the variables.
fn damage_variable(random: &mut Random, draft: &Draft, image: &mut [u8]) {
    let count = draft.variables.len();
    if count > 0 && random.percent(50) {
        set_variable(image, random.below(count), any_value(random));
    } else if count < Draft::VARIABLES {
        let beyond = VARIABLES + 4 * count;
        image[random.pick(&[beyond, beyond + 3, IMAGE - 1])] = random.nonzero_byte();
    }
}
