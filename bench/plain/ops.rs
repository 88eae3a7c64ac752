//! The binary ops of the plain programs; the tests of the evaluator hold them at the corners of their values.

/// A binary op on lower and top, or nothing where the result is outside 32 bits or the divisor is 0.
pub fn combine(op: u8, lower: i32, top: i32) -> Option<i32> {
    match op {
        3 => lower.checked_add(top),
        4 => lower.checked_sub(top),
        5 => lower.checked_mul(top),
        6 => lower.checked_div(top),
        7 if top == 0 => None,
        7 => Some(lower.wrapping_rem(top)),
        8 => Some((lower < top) as i32),
        _ => Some((lower == top) as i32),
    }
}
