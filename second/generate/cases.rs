//! The stream of cases: each is one call with all that is lent to it. A lift is kept on a chart for many calls, so that steps
//! start from where others ended; the stream learns what became of a case to lend the next one just enough, or one too little.
use super::charts::{self, Chart};
use super::disturb::disturb;
use super::images::{self, IMAGE};
use super::random::Random;
use std::rc::Rc;

pub const LIFTS: usize = 64;
pub const MOST_UNITS: u32 = 1_000_000;
const TRACE: usize = 1024;
const ITEM: usize = 4;

#[derive(Clone, Copy, PartialEq, Debug)]
pub enum Call {
    Step,
    Fresh,
    Bound,
}

#[derive(Clone)]
pub struct Case {
    pub call: Call,
    pub chart: Rc<[u8]>,
    /// the chart keeps every rule by the way it was made
    pub valid: bool,
    pub board: Vec<u8>,
    pub trace: usize,
    pub lift: u32,
    pub event: u32,
    pub allowance: u32,
}

/// A step's answer, unpacked.
pub struct Answer {
    pub refusal: usize,
    pub items: usize,
    pub units: usize,
}

impl Answer {
    pub fn of_step(answer: u64) -> Answer {
        let parts = [answer % 256, answer / 256 % 512, answer / 131_072];
        let [refusal, items, units] = parts.map(|part| part as usize);
        Answer { refusal, items, units }
    }
}

/// What a step is given less and less of.
#[derive(Clone, Copy)]
enum Scarce {
    Units,
    TraceBytes,
}

impl Scarce {
    fn give(self, case: &mut Case, amount: usize) {
        match self {
            Scarce::Units => case.allowance = amount as u32,
            Scarce::TraceBytes => case.trace = amount,
        }
    }

    fn given(self, case: &Case) -> usize {
        match self {
            Scarce::Units => case.allowance as usize,
            Scarce::TraceBytes => case.trace,
        }
    }

    /// The refusal of a step that had too little of it.
    fn refusal(self) -> usize {
        match self {
            Scarce::Units => 16,
            Scarce::TraceBytes => 20,
        }
    }
}

/// The search for the least amount with which a step is refused for another reason.
struct Hunt {
    case: Case,
    scarce: Scarce,
    too_little: usize,
    enough: usize,
}

/// A chart and a lift that stays on it.
struct Visit {
    chart: Chart,
    board: Vec<u8>,
    lift: u32,
    calls_left: usize,
}

impl Visit {
    fn new(random: &mut Random) -> Visit {
        let chart = charts::any(random);
        let lift = match random.below(10) {
            0..=5 => random.below(3),
            6..=8 => random.below(LIFTS),
            _ => LIFTS - 1,
        };
        let end = IMAGE * (lift + 1);
        let more = random.pick(&[0, 0, 1, 201, 202, 300]);
        let length = if random.percent(5) { IMAGE * LIFTS } else { end + more };
        let board = random.bytes(length);
        let mut visit = Visit { calls_left: chart.calls, chart, board, lift: lift as u32 };
        visit.renew(random);
        visit
    }

    /// Another image for a lift that has none yet, or whose steps end in refusals.
    fn renew(&mut self, random: &mut Random) {
        let start = IMAGE * self.lift as usize;
        self.board[start..start + IMAGE].copy_from_slice(&images::accepted(random, &self.chart.draft));
    }
}

pub struct Stream {
    random: Random,
    visit: Visit,
    /// cases that follow from what was learned
    next: Vec<Case>,
    hunt: Option<Hunt>,
}

impl Stream {
    pub fn new(seed: u64) -> Stream {
        let mut random = Random::new(seed);
        let visit = Visit::new(&mut random);
        Stream { random, visit, next: Vec::new(), hunt: None }
    }

    pub fn next(&mut self) -> Case {
        if let Some(hunt) = &self.hunt {
            let mut case = hunt.case.clone();
            hunt.scarce.give(&mut case, (hunt.too_little + hunt.enough) / 2);
            return case;
        }
        if let Some(case) = self.next.pop() {
            return case;
        }
        if self.visit.calls_left == 0 {
            self.visit = Visit::new(&mut self.random);
        }
        self.visit.calls_left -= 1;
        self.call_on_visit()
    }

    fn call_on_visit(&mut self) -> Case {
        let random = &mut self.random;
        let visit = &self.visit;
        // a chart has one bound, so the first call asks for it or none does
        let first = visit.calls_left + 1 == visit.chart.calls;
        let call = match random.below(100) {
            0..=59 if first => Call::Bound,
            60..=69 => Call::Fresh,
            _ => Call::Step,
        };
        let mut case = Case {
            call,
            chart: visit.chart.bytes.clone(),
            valid: visit.chart.whole,
            board: visit.board.clone(),
            trace: random.pick(&[TRACE, TRACE, TRACE, TRACE + 4, 2 * TRACE]),
            lift: visit.lift,
            event: random.between(1, visit.chart.draft.events as usize) as u32,
            allowance: MOST_UNITS,
        };
        if call != Call::Bound && random.percent(40) {
            for _ in 0..random.pick(&[1, 1, 2, 2, 3]) {
                disturb(random, &visit.chart.draft, &mut case);
            }
        }
        case
    }

    /// What the proved call made of a case.
    pub fn learn(&mut self, case: &Case, answer: u64, board: &[u8]) {
        let told = Answer::of_step(answer);
        if let Some(hunt) = &mut self.hunt {
            hunt.learn(told.refusal);
            if hunt.enough - hunt.too_little <= 1 {
                self.hunt = None;
            }
            return;
        }
        if case.call == Call::Bound {
            return;
        }
        let on_visit = case.lift == self.visit.lift && board.len() == self.visit.board.len();
        if told.refusal == 0 && on_visit {
            self.visit.board.copy_from_slice(board);
        } else if told.refusal >= 16 && self.random.percent(25) {
            self.visit.renew(&mut self.random);
        }
        if case.call == Call::Step {
            self.follow(case, &told);
        }
    }

    /// Cases with less of what a step used; where it was refused, how much it used is to be found out.
    fn follow(&mut self, case: &Case, told: &Answer) {
        let ample = case.allowance == MOST_UNITS && case.trace >= TRACE;
        if told.refusal == 0 && ample && self.random.percent(15) {
            self.lend_less(case, told);
        } else if told.refusal >= 16 && self.random.percent(4) {
            let scarce = self.random.pick(&[Scarce::Units, Scarce::TraceBytes]);
            if told.refusal != scarce.refusal() {
                self.hunt = Some(Hunt { case: case.clone(), scarce, too_little: 0, enough: scarce.given(case) });
            }
        }
    }

    fn lend_less(&mut self, case: &Case, told: &Answer) {
        let random = &mut self.random;
        let bytes = ITEM * told.items;
        let units = [told.units, told.units - 1, random.between(0, told.units)];
        let traces = [bytes, bytes - 1, bytes + 3, random.below(bytes)];
        for _ in 0..random.between(0, 3) {
            let mut less = case.clone();
            if random.percent(70) {
                less.allowance = random.pick(&units) as u32;
            }
            if random.percent(60) {
                less.trace = random.pick(&traces);
            }
            self.next.push(less);
        }
        if random.percent(40) {
            // the units with which the trace, not the allowance, is first to be too small
            let case = Case { trace: random.below(bytes), ..case.clone() };
            self.hunt = Some(Hunt { case, scarce: Scarce::Units, too_little: 0, enough: told.units });
        }
    }
}

impl Hunt {
    fn learn(&mut self, refusal: usize) {
        let amount = (self.too_little + self.enough) / 2;
        if refusal == self.scarce.refusal() {
            self.too_little = amount;
        } else {
            self.enough = amount;
        }
    }
}
