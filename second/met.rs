//! What the cases met: how often each number was answered by each call, and what there was in the steps that were not refused.
use crate::draft::{Draft, ALL_OF};
use crate::engines::Outcome;
use crate::generate::cases::{Answer, Call, Case};
use crate::generate::images::{HISTORY, IMAGE};

/// The kinds of items, in the order of their numbers.
const KINDS: [&str; 6] =
    ["states entered", "states left", "during points", "segments passed", "transition actions", "outputs raised"];
const ENTERED: usize = 1;
const DURING: usize = 3;
const PASSED: usize = 4;
const TRANSITION: usize = 5;
const RAISED: usize = 6;

/// What shows in several items, or in an item and the chart.
const SIGNS: [&str; 7] = [
    "first steps",
    "steps that fire more than once",
    "steps with a path of more than two segments",
    "steps with a path given up",
    "steps in which a send runs a state again",
    "steps that enter an all-of state",
    "steps that enter a child that was recorded, not the initial one",
];

type Item = (usize, usize);

#[derive(Default)]
pub struct Met {
    numbers: [[usize; 3]; 24],
    kinds: [usize; KINDS.len()],
    signs: [usize; SIGNS.len()],
}

impl Met {
    pub fn count(&mut self, case: &Case, outcome: &Outcome) {
        let told = Answer::of_step(outcome.answer);
        self.numbers[told.refusal][case.call as usize] += 1;
        if case.call == Call::Step && told.refusal == 0 {
            let items: Vec<Item> = outcome.trace.slice().chunks_exact(4).take(told.items).map(item).collect();
            items.iter().for_each(|item| self.kinds[item.0 - 1] += 1);
            for (count, sign) in self.signs.iter_mut().zip(signs(case, &items)) {
                *count += sign as usize;
            }
        }
    }

    pub fn print(&self) {
        println!("number     step    fresh    bound");
        for (number, [step, fresh, bound]) in self.numbers.iter().enumerate() {
            println!("{number:6} {step:8} {fresh:8} {bound:8}");
        }
        let counts = self.kinds.iter().chain(&self.signs);
        for (count, name) in counts.zip(KINDS.iter().chain(&SIGNS)) {
            println!("{count:9} {name}");
        }
    }

    /// The numbers that no call answered.
    pub fn missing(&self) -> Vec<usize> {
        (0..self.numbers.len()).filter(|&number| self.numbers[number] == [0; 3]).collect()
    }
}

/// The kind and the number of an item.
fn item(bytes: &[u8]) -> Item {
    let half = |at: usize| u16::from_le_bytes([bytes[at], bytes[at + 1]]) as usize;
    (half(2), half(0))
}

fn signs(case: &Case, items: &[Item]) -> [bool; SIGNS.len()] {
    let of_kind = |kind: usize| items.iter().filter(|item| item.0 == kind).count();
    let twice = |item: &Item| items.iter().filter(|other| *other == item).count() > 1;
    let entered = || items.iter().filter(|item| item.0 == ENTERED).map(|item| item.1);
    let paths = path_lengths(items);
    [
        items[0] == (ENTERED, 0),
        paths.len() > 1,
        paths.iter().any(|&length| length > 2),
        of_kind(PASSED) > of_kind(TRANSITION),
        items.iter().any(|item| item.0 == DURING && twice(item)),
        entered().any(|state| state_of(case, state)[3] == ALL_OF),
        entered().any(|state| entered_as_recorded(case, state)),
    ]
}

/// The transition actions of one path follow each other, with nothing but raised outputs between them.
fn path_lengths(items: &[Item]) -> Vec<usize> {
    let kinds: Vec<usize> = items.iter().map(|item| item.0).filter(|&kind| kind != RAISED).collect();
    kinds.split(|&kind| kind != TRANSITION).map(|path| path.len()).filter(|&length| length > 0).collect()
}

/// The record of a state in the chart.
fn state_of(case: &Case, state: usize) -> &[u8] {
    &case.chart[Draft::HEADER + Draft::STATE * state..]
}

fn entered_as_recorded(case: &Case, state: usize) -> bool {
    let parent = state_of(case, state)[2] as usize;
    let initial = state_of(case, parent)[4] as usize;
    let recorded = case.board[IMAGE * case.lift as usize + HISTORY + parent] as usize;
    state != 0 && state == recorded && state != initial
}
