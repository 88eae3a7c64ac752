//! What the program `long_block` does, with the plain evaluator.
#[allow(dead_code)]
mod evaluator;

const ROUNDS: u32 = 100_000;

/// x = (x + 3) % 997; z = not (x < y); y = x * 2 / 5
const SEVENTEEN: [(u8, u8, i16); 17] = [
    (1, 0, 0), (0, 0, 3), (3, 0, 0), (0, 0, 997), (7, 0, 0), (2, 0, 0),
    (1, 0, 0), (1, 1, 0), (8, 0, 0), (10, 0, 0), (2, 2, 0),
    (1, 0, 0), (0, 0, 2), (5, 0, 0), (0, 0, 5), (6, 0, 0), (2, 1, 0),
];

fn main() {
    let mut code = vec![];
    for (op, a, b) in [SEVENTEEN; 15].concat() {
        code.extend([b'I', b'N', op, a]);
        code.extend(b.to_le_bytes());
    }
    let mut image = [0; evaluator::IMAGE];
    let mut items = vec![];
    for _ in 0..ROUNDS {
        let mut units = 255;
        items.clear();
        evaluator::perform(&code, &mut image, &mut items, 1, &mut units).unwrap();
    }
    println!("{ROUNDS}");
    for v in 0..3 {
        println!("{}", u32::from_le_bytes(image[74 + 4 * v..78 + 4 * v].try_into().unwrap()));
    }
}
