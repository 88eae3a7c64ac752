//! Cases other than usual: images damaged, lifts and events that there are not, boards and traces that end early.
use super::cases::{Case, LIFTS, MOST_UNITS};
use super::images::{self, IMAGE};
use super::random::Random;
use crate::draft::Draft;

/// One thing of a case other than usual, which may make it one to be refused.
pub fn disturb(random: &mut Random, draft: &Draft, case: &mut Case) {
    match random.below(100) {
        0..=44 => disturb_image(random, draft, case),
        45..=54 => disturb_lift(random, case),
        55..=62 => disturb_board(random, case),
        63..=72 => {
            case.event =
                random.pick(&[0, 0, draft.events as u32 + 1, draft.events as u32 + 1, 33, 256, 257, 65_537, 1 << 31, u32::MAX])
        }
        73..=84 => {
            let small = random.below(60) as u32;
            case.allowance =
                random.pick(&[0, small, small, small, 1000, MOST_UNITS - 1, MOST_UNITS + 1, MOST_UNITS + 1, u32::MAX]);
        }
        _ => {
            let small = random.below(60);
            case.trace = random.pick(&[0, 1, 3, small, small, small, 1020, 1023, 1025, 1028, 1028, 1032, 2048, 65_536 + small]);
        }
    }
}

/// The lift's part of the board, if it is there.
fn part_of(case: &mut Case) -> Option<&mut [u8]> {
    let start = IMAGE * case.lift as usize;
    case.board.get_mut(start..start + IMAGE)
}

fn disturb_image(random: &mut Random, draft: &Draft, case: &mut Case) {
    if let Some(image) = part_of(case) {
        images::damage(random, draft, image);
    }
}

/// Another lift, one that there is not, or one that only a longer board could have, with its image on just such a board.
fn disturb_lift(random: &mut Random, case: &mut Case) {
    // 202 times this is 134 in 32 bits
    const WRAPS: u32 = 21_262_215;
    match random.below(4) {
        0 => case.lift = random.below(LIFTS) as u32,
        1 => case.lift = random.pick(&[64, 65, 128, 255, 256, 1 << 31, WRAPS, u32::MAX]),
        _ => {
            let Some(image) = part_of(case).map(|image| image.to_vec()) else { return };
            case.lift = random.pick(&[63, 64, 64, 65, 256]);
            case.board.resize(IMAGE * case.lift as usize, 0);
            case.board.extend(image);
        }
    }
}

/// A board that ends before the lift's part, in it or just at its end; one that is shorter already gets longer.
fn disturb_board(random: &mut Random, case: &mut Case) {
    let start = IMAGE * case.lift as usize;
    let end = start + IMAGE;
    let length = random.pick(&[0, start, end - 1, end - 1, end, end]);
    if length <= case.board.len() {
        case.board.truncate(length);
    } else {
        let more = random.pick(&[1, 100, IMAGE, 65_536]);
        case.board.extend(random.bytes(more));
    }
}
