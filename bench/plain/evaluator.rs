//! A block that cannot send, performed plainly: what `blocks` does, written from the paper in another language.
#[path = "ops.rs"] // the file is both a program of its own, for its tests, and a part of another
mod ops;
use ops::combine;

pub const IMAGE: usize = 202;
const VARIABLES: usize = 74;
const STACK: usize = 16;

fn variable_at(a: u8) -> usize {
    VARIABLES + 4 * a as usize
}

/// The instructions of an accepted chart's block, each six bytes; or the number of the refusal.
pub fn perform(code: &[u8], image: &mut [u8; IMAGE], items: &mut Vec<u32>, room: usize, units: &mut u32) -> Result<(), u8> {
    let mut stack = [0i32; STACK];
    let mut n = 0;
    for i in code.chunks_exact(6) {
        *units = units.checked_sub(1).ok_or(16)?;
        let a = i[3];
        match i[2] {
            0 => {
                stack[n] = i16::from_le_bytes([i[4], i[5]]) as i32;
                n += 1;
            }
            1 => {
                let at = variable_at(a);
                stack[n] = i32::from_le_bytes(image[at..at + 4].try_into().unwrap());
                n += 1;
            }
            2 => {
                n -= 1;
                let at = variable_at(a);
                image[at..at + 4].copy_from_slice(&stack[n].to_le_bytes());
            }
            10 => stack[n - 1] = (stack[n - 1] == 0) as i32,
            11 if items.len() == room => return Err(20),
            11 => items.push(6 * 65_536 + a as u32),
            op => {
                n -= 1;
                stack[n - 1] = combine(op, stack[n - 1], stack[n]).ok_or(17)?;
            }
        }
    }
    Ok(())
}

#[cfg(test)]
mod tests {
    use super::*;

    const CORNERS_STDOUT: &str = include_str!("../../crates/corners/stdout");
    const CORNERS: [i64; 5] = [-(1 << 31), -1, 0, 1, (1 << 31) - 1];
    const NAMES: [&str; 7] = ["add", "subtract", "multiply", "quotient", "remainder", "less", "equal"];

    /// The paper's words for each op, over integers that hold every result.
    fn paper(op: usize, x: i64, y: i64) -> String {
        let z = match op {
            0 => x + y,
            1 => x - y,
            2 => x * y,
            3 | 4 if y == 0 => return "refused 17".into(),
            3 => (x.abs() / y.abs()) * x.signum() * y.signum(),
            4 => (x.abs() % y.abs()) * if x < 0 { -1 } else { 1 },
            5 => (x < y) as i64,
            _ => (x == y) as i64,
        };
        if i32::try_from(z).is_ok() {
            z.to_string()
        } else {
            "refused 17".into()
        }
    }

    fn instruction(op: u8, a: u8) -> [u8; 6] {
        [b'I', b'N', op, a, 0, 0]
    }

    fn answer(code: &[[u8; 6]], x: i64, y: i64, units: u32) -> String {
        let (mut image, mut items, mut units) = ([0; IMAGE], vec![], units);
        image[74..78].copy_from_slice(&(x as i32).to_le_bytes());
        image[78..82].copy_from_slice(&(y as i32).to_le_bytes());
        match perform(&code.concat(), &mut image, &mut items, 1, &mut units) {
            Ok(()) => i32::from_le_bytes(image[82..86].try_into().unwrap()).to_string(),
            Err(n) => format!("refused {n}"),
        }
    }

    /// What the program `corners` is to print of each op: the paper's word for it, and this evaluator's.
    #[test]
    fn each_op_at_its_corners() {
        let mut lines = String::new();
        for op in 0..7 {
            for x in CORNERS {
                for y in CORNERS {
                    let code = [instruction(1, 0), instruction(1, 1), instruction(3 + op as u8, 0), instruction(2, 2)];
                    assert_eq!(answer(&code, x, y, 4), paper(op, x, y), "{} {x} {y}", NAMES[op]);
                    lines += &format!("{} {x} {y}: {}\n", NAMES[op], paper(op, x, y));
                }
            }
        }
        for x in CORNERS {
            let code = [instruction(1, 0), instruction(10, 0), instruction(2, 2)];
            assert_eq!(answer(&code, x, 0, 3), ((x == 0) as u8).to_string());
            lines += &format!("not {x}: {}\n", (x == 0) as u8);
        }
        assert!(CORNERS_STDOUT.starts_with(&lines));
    }

    /// Load, store, raise, raise with room for one item: each instruction is paid before it.
    #[test]
    fn units_and_room() {
        let code = [instruction(1, 0), instruction(2, 2), instruction(11, 1), instruction(11, 1)];
        let expected = [
            (0, 0, "0"),
            (1, 0, "refused 16"),
            (2, 1, "refused 16"),
            (2, 2, "7"),
            (3, 2, "refused 16"),
            (3, 3, "7"),
            (4, 3, "refused 16"),
            (4, 4, "refused 20"),
        ];
        let mut lines = String::new();
        for (count, units, said) in expected {
            assert_eq!(answer(&code[..count], 7, 0, units), said, "{count} instructions, {units} units");
            lines += &format!("{count} instructions, {units} units: {said}\n");
        }
        assert!(CORNERS_STDOUT.ends_with(&lines));
        assert_eq!(CORNERS_STDOUT.lines().count(), 7 * 25 + 5 + expected.len());
    }
}
