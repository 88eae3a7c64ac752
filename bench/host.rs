//! A host's board, whose lifts get the events of a case one after another; and that every program does the same with it.
use crate::calls::{Program, Step, PROGRAMS};
use crate::charts::Case;
use crate::measure::{opaque, Call};
use std::ops::Range;

pub const IMAGE: usize = 202;
pub const ITEM: usize = 4;
pub const LARGEST_ALLOWANCE: u32 = 1_000_000;

/// All lifts of a board, and one of them.
pub const LIFTS: Range<u32> = 0..64;
pub const LIFT: Range<u32> = 5..6;

const BOARD: usize = IMAGE * LIFTS.end as usize;
const TRACE: usize = 1024;

/// How many events programs are held to each other on, at least.
const COMPARED: usize = 3000;

pub struct Host<'a> {
    step: Step,
    case: &'a Case,
    fresh: Vec<u8>,
    pub board: Vec<u8>,
    pub trace: Vec<u8>,
    first_lift: u32,
    turn: usize,
    /// Where among the events each lift is.
    places: Vec<usize>,
}

impl<'a> Host<'a> {
    pub fn new(program: Program, case: &'a Case, lifts: Range<u32>) -> Host<'a> {
        let mut fresh = vec![0; BOARD];
        for lift in lifts.clone() {
            assert_eq!((program.fresh)(&case.chart, &mut fresh, lift), 0);
        }
        // each lift begins elsewhere, so that lifts are in different states
        let places = (0..lifts.len()).map(|turn| turn % case.events.len()).collect();
        let (board, trace) = (fresh.clone(), vec![0; TRACE]);
        Host { step: program.step, case, fresh, board, trace, first_lift: lifts.start, turn: 0, places }
    }

    /// The next event of the lift whose turn it is.
    pub fn next(&mut self) -> u64 {
        let (turn, place) = (self.turn, self.places[self.turn]);
        self.turn = following(turn, self.places.len());
        self.places[turn] = following(place, self.case.events.len());
        let lift = self.first_lift + turn as u32;
        if place == 0 && self.case.anew {
            let part = IMAGE * lift as usize..IMAGE * (lift as usize + 1);
            self.board[part.clone()].copy_from_slice(&self.fresh[part]);
        }
        self.call(lift, self.case.events[place], LARGEST_ALLOWANCE)
    }

    /// One event after another.
    pub fn events(mut self) -> Call<'a> {
        Call::new(self.case.events.len() * self.places.len(), move || self.next())
    }

    pub fn call(&mut self, lift: u32, event: u32, allowance: u32) -> u64 {
        (self.step)(opaque(&self.case.chart[..]), &mut self.board, &mut self.trace, lift, event, allowance)
    }

    /// A call that is refused with this number, again and again.
    pub fn refused(mut self, number: u64, lift: u32, event: u32, allowance: u32) -> Call<'a> {
        assert_eq!(self.call(lift, event, allowance), number);
        Call::new(1, move || self.call(lift, event, allowance))
    }
}

fn following(place: usize, count: usize) -> usize {
    if place + 1 == count {
        0
    } else {
        place + 1
    }
}

/// Events of a case on these lifts, with each of the programs.
pub fn events_with_each<'a>(case: &'a Case, lifts: Range<u32>) -> [Call<'a>; 3] {
    PROGRAMS.map(|program| Host::new(program, case, lifts.clone()).events())
}

/// What an event uses, on average.
pub struct Work {
    pub units: f64,
    pub items: f64,
}

/// Every program on the same events: the same answers, boards and traces.
pub fn agree(case: &Case, lifts: Range<u32>) -> Work {
    let [bound, others @ ..] = PROGRAMS.map(|program| (program.bound)(&case.chart));
    assert_eq!(others, [bound; 2]);
    let [mut ours, mut second, mut plain] = PROGRAMS.map(|program| Host::new(program, case, lifts.clone()));
    let mut same = || {
        let answer = ours.next();
        assert_eq!(answer % 256, 0);
        for other in [&mut second, &mut plain] {
            assert_eq!((other.next(), &other.board, &other.trace), (answer, &ours.board, &ours.trace));
        }
        answer
    };
    let cycle = case.events.len() * lifts.len();
    if !case.anew {
        // where the lifts start is not counted
        (0..cycle).for_each(|_| _ = same());
    }
    let answers: Vec<u64> = (0..COMPARED.next_multiple_of(cycle)).map(|_| same()).collect();
    let mean = |part: fn(u64) -> u64| answers.iter().map(|&answer| part(answer)).sum::<u64>() as f64 / answers.len() as f64;
    Work { units: mean(|answer| answer / 131_072), items: mean(|answer| answer / 256 % 512) }
}
