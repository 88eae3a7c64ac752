//! The three calls, step, fresh and bound, written plainly from the paper in another language, to compare answers and time with.
mod ops;
mod plain;
mod reading;
use ops::combine;
use reading::{has, i32_at, Chart, Destination, ALL_OF, FROM_JUNCTION, INNER, INSTRUCTION, ONE_OF, OUTER, SEND};

const IMAGE: usize = 202;

const LAST_LIFT: usize = 63;
const MOST_UNITS: u32 = 1_000_000;
const MOST_BOUND: u64 = 1_000_000;
const MOST_ITEMS: usize = 256;
const MOST_SENDS: usize = 8;
const LONGEST_PATH: usize = 128;
const STACK: usize = 16;

const ENTERED: u32 = 1;
const LEFT: u32 = 2;
const DURING: u32 = 3;
const PASSED: u32 = 4;
const TRANSITION: u32 = 5;
const RAISED: u32 = 6;

/// One event of a lift: refusal + 256 x items + 131,072 x units.
pub fn step(chart: &[u8], board: &mut [u8], trace: &mut [u8], lift: u32, event: u32, allowance: u32) -> u64 {
    match try_step(chart, board, trace, lift, event, allowance) {
        Ok((items, units)) => 256 * items as u64 + 131_072 * units as u64,
        Err(refusal) => refusal as u64,
    }
}

/// A lift made fresh: the refusal.
pub fn fresh(chart: &[u8], board: &mut [u8], lift: u32) -> u64 {
    match try_fresh(chart, board, lift) {
        Ok(()) => 0,
        Err(refusal) => refusal as u64,
    }
}

/// The bound of a chart: refusal + 256 x bound.
pub fn bound(chart: &[u8]) -> u64 {
    match accept(chart).and_then(|chart| chart.bound()) {
        Ok(bound) => 256 * bound,
        Err(refusal) => refusal as u64,
    }
}

/// The items and the units of a step, or its refusal.
fn try_step(chart: &[u8], board: &mut [u8], trace: &mut [u8], lift: u32, event: u32, allowance: u32) -> Result<(usize, u32), u8> {
    let chart = accept(chart)?;
    let part = part_of(board, lift)?;
    let image = Image::accept(&chart, part)?;
    if event < 1 || chart.events < event {
        return Err(14);
    }
    if allowance > MOST_UNITS {
        return Err(15);
    }
    let room = MOST_ITEMS.min(trace.len() / 4);
    let started = image.active != 0;
    let mut step = Step { chart: &chart, image, items: Vec::with_capacity(room), room, units: allowance, sends: 0 };
    if started {
        step.run(0, event as u8)?;
    } else {
        step.enter(0, 0)?;
    }
    step.image.write(part);
    for (place, item) in trace.chunks_exact_mut(4).zip(&step.items) {
        place.copy_from_slice(&item.to_le_bytes());
    }
    Ok((step.items.len(), allowance - step.units))
}

fn try_fresh(chart: &[u8], board: &mut [u8], lift: u32) -> Result<(), u8> {
    let chart = accept(chart)?;
    let part = part_of(board, lift)?;
    Image::fresh(&chart).write(part);
    Ok(())
}

fn accept(chart: &[u8]) -> Result<Chart<'_>, u8> {
    match plain::refusal(chart) {
        0 => Ok(Chart::read(chart)),
        refusal => Err(refusal),
    }
}

/// The lift's own bytes of the board.
fn part_of(board: &mut [u8], lift: u32) -> Result<&mut [u8], u8> {
    let lift = lift as usize;
    if lift > LAST_LIFT {
        return Err(12);
    }
    board.get_mut(IMAGE * lift..IMAGE * (lift + 1)).ok_or(12)
}

/// What is known of the weight of a junction's segments.
#[derive(Clone, Copy)]
enum Weight {
    Unknown,
    Open,
    Known(u64),
}

impl Chart<'_> {
    fn bound(&self) -> Result<u64, u8> {
        if self.has_send() {
            return Err(21);
        }
        let mut weights = [Weight::Unknown; 64];
        for j in 0..self.junction_count() {
            self.junction_weight(j, &mut weights)?;
        }
        let count = |block: &[u8]| (block.len() / INSTRUCTION) as u64;
        let of_states: u64 = (0..self.state_count()).map(|s| 2 + count(self.entry(s)) + count(self.exit(s))).sum();
        let segments = 0..self.segment_count();
        let move_cost = of_states + segments.map(|t| count(self.transition_action(t))).sum::<u64>();
        let mut bound = 0;
        for s in 0..self.state_count() {
            bound += 1 + count(self.during(s)) + move_cost;
            for t in self.segments_of(OUTER, s).chain(self.segments_of(INNER, s)) {
                bound += self.segment_weight(t, &mut weights)?;
            }
        }
        if bound > MOST_BOUND {
            return Err(23);
        }
        Ok(bound)
    }

    fn segment_weight(&self, t: usize, weights: &mut [Weight; 64]) -> Result<u64, u8> {
        let instructions = (self.condition(t).len() + self.condition_action(t).len()) / INSTRUCTION;
        let beyond = match self.destination(t) {
            Destination::State(_) => 0,
            Destination::Junction(j) => self.junction_weight(j, weights)?,
        };
        Ok(1 + instructions as u64 + beyond)
    }

    /// The sum of W over a junction's segments, each junction weighed once; one above the limit stands for all above it.
    fn junction_weight(&self, j: usize, weights: &mut [Weight; 64]) -> Result<u64, u8> {
        match weights[j] {
            Weight::Open => return Err(22),
            Weight::Known(weight) => return Ok(weight),
            Weight::Unknown => weights[j] = Weight::Open,
        }
        let mut sum = 0;
        for t in self.segments_of(FROM_JUNCTION, j) {
            sum = (sum + self.segment_weight(t, weights)?).min(MOST_BOUND + 1);
        }
        weights[j] = Weight::Known(sum);
        Ok(sum)
    }
}

struct Image {
    active: u64,
    history: [u8; 64],
    variables: [i32; 32],
}

impl Image {
    fn fresh(chart: &Chart) -> Image {
        let mut variables = [0; 32];
        for v in 0..chart.variable_count() {
            variables[v] = chart.initial_value(v);
        }
        Image { active: 0, history: [0; 64], variables }
    }

    fn accept(chart: &Chart, bytes: &[u8]) -> Result<Image, u8> {
        let image = Image {
            active: u64::from_le_bytes(bytes[2..10].try_into().unwrap()),
            history: bytes[10..74].try_into().unwrap(),
            variables: std::array::from_fn(|v| i32_at(bytes, 74 + 4 * v)),
        };
        if bytes[..2] == *b"IM" && image.accepted(chart) {
            Ok(image)
        } else {
            Err(13)
        }
    }

    fn accepted(&self, chart: &Chart) -> bool {
        let states = chart.state_count();
        let variables = chart.variable_count();
        let beyond_zero = (states == 64 || self.active >> states == 0)
            && self.history[states..].iter().all(|&h| h == 0)
            && self.variables[variables..].iter().all(|&v| v == 0);
        let history_right = |s: usize| {
            let recorded = self.history[s] as usize;
            recorded == 0 || chart.keeps_history(s) && has(chart.children[s], recorded)
        };
        let not_started = self.active == 0 && self.history.iter().all(|&h| h == 0);
        let started = has(self.active, 0) && (0..states).all(|s| self.shape_right(chart, s));
        beyond_zero && (0..states).all(history_right) && (not_started || started)
    }

    /// One active child under an active one-of state, all under an active all-of state, none under an inactive one.
    fn shape_right(&self, chart: &Chart, s: usize) -> bool {
        let active_children = self.active & chart.children[s];
        if !has(self.active, s) {
            return active_children == 0;
        }
        match chart.kind(s) {
            ONE_OF => active_children.count_ones() == 1,
            _ => active_children == chart.children[s],
        }
    }

    fn write(&self, bytes: &mut [u8]) {
        bytes[..2].copy_from_slice(b"IM");
        bytes[2..10].copy_from_slice(&self.active.to_le_bytes());
        bytes[10..74].copy_from_slice(&self.history);
        for (place, variable) in bytes[74..IMAGE].chunks_exact_mut(4).zip(self.variables) {
            place.copy_from_slice(&variable.to_le_bytes());
        }
    }
}

/// How a search ends: on a state, without one, at a dead end, or because its owner is gone.
enum Found {
    Target(usize),
    Nothing,
    DeadEnd,
    Abandoned,
}

struct Step<'a> {
    chart: &'a Chart<'a>,
    image: Image,
    items: Vec<u32>,
    room: usize,
    units: u32,
    sends: usize,
}

impl<'a> Step<'a> {
    fn pay(&mut self) -> Result<(), u8> {
        self.units = self.units.checked_sub(1).ok_or(16)?;
        Ok(())
    }

    fn note(&mut self, kind: u32, number: usize) -> Result<(), u8> {
        if self.items.len() == self.room {
            return Err(20);
        }
        self.items.push(65_536 * kind + number as u32);
        Ok(())
    }

    fn is_active(&self, s: usize) -> bool {
        has(self.image.active, s)
    }

    fn run(&mut self, p: usize, event: u8) -> Result<(), u8> {
        self.pay()?;
        if self.try_edge(OUTER, p, event)? {
            return Ok(());
        }
        self.note(DURING, p)?;
        if !self.perform(self.chart.during(p), p)? || self.try_edge(INNER, p, event)? {
            return Ok(());
        }
        if self.chart.kind(p) == ALL_OF {
            for child in self.chart.children(p) {
                if self.is_active(child) {
                    self.run(child, event)?;
                }
            }
        } else if let Some(child) = self.chart.children(p).find(|&c| self.is_active(c)) {
            self.run(child, event)?;
        }
        Ok(())
    }

    /// Searches from one edge of p and fires what it finds; whether the run of p is over with it.
    fn try_edge(&mut self, edge: u8, p: usize, event: u8) -> Result<bool, u8> {
        let mut path = Vec::new();
        match self.search(edge, p, p, event, &mut path)? {
            Found::Target(target) => {
                self.fire(p, target, &path)?;
                Ok(true)
            }
            Found::Abandoned => Ok(true),
            Found::Nothing | Found::DeadEnd => Ok(false),
        }
    }

    fn search(&mut self, kind: u8, number: usize, owner: usize, event: u8, path: &mut Vec<usize>) -> Result<Found, u8> {
        let chart = self.chart;
        for t in chart.segments_of(kind, number) {
            self.pay()?;
            let wanted = chart.event(t);
            if wanted != 0 && wanted != event || !self.holds(chart.condition(t), owner)? {
                continue;
            }
            if path.len() == LONGEST_PATH {
                return Err(19);
            }
            self.note(PASSED, t)?;
            path.push(t);
            if !self.perform(chart.condition_action(t), owner)? {
                return Ok(Found::Abandoned);
            }
            let junction = match chart.destination(t) {
                Destination::State(target) => return Ok(Found::Target(target)),
                Destination::Junction(j) => j,
            };
            if chart.segments_of(FROM_JUNCTION, junction).next().is_none() {
                return Ok(Found::DeadEnd);
            }
            match self.search(FROM_JUNCTION, junction, owner, event, path)? {
                Found::Nothing => path.pop(),
                found => return Ok(found),
            };
        }
        Ok(Found::Nothing)
    }

    fn fire(&mut self, source: usize, target: usize, path: &[usize]) -> Result<(), u8> {
        let arena = self.chart.arena(source, target, path);
        self.leave_children(arena)?;
        for &t in path {
            self.note(TRANSITION, t)?;
            self.perform(self.chart.transition_action(t), source)?;
        }
        self.enter_children(arena, target)
    }

    fn leave(&mut self, s: usize) -> Result<(), u8> {
        self.pay()?;
        self.leave_children(s)?;
        self.perform(self.chart.exit(s), s)?;
        let parent = self.chart.parent(s);
        if self.chart.keeps_history(parent) {
            self.image.history[parent] = s as u8;
        }
        self.image.active &= !(1 << s);
        self.note(LEFT, s)
    }

    fn leave_children(&mut self, s: usize) -> Result<(), u8> {
        for child in self.chart.children(s).rev() {
            if self.is_active(child) {
                self.leave(child)?;
            }
        }
        Ok(())
    }

    fn enter(&mut self, s: usize, target: usize) -> Result<(), u8> {
        self.pay()?;
        self.image.active |= 1 << s;
        self.note(ENTERED, s)?;
        self.perform(self.chart.entry(s), s)?;
        self.enter_children(s, target)
    }

    fn enter_children(&mut self, s: usize, target: usize) -> Result<(), u8> {
        match self.chart.kind(s) {
            ONE_OF => {
                let recorded = self.image.history[s] as usize;
                let otherwise = if recorded != 0 { recorded } else { self.chart.initial(s) };
                let child = self.chart.child_towards(s, target).unwrap_or(otherwise);
                self.enter(child, target)
            }
            _ => self.chart.children(s).try_for_each(|child| self.enter(child, target)),
        }
    }

    /// Performs an action; whether its owner is still there for what follows.
    fn perform(&mut self, action: &[u8], owner: usize) -> Result<bool, u8> {
        self.perform_on(&mut [0; STACK], action, owner)
    }

    fn holds(&mut self, condition: &[u8], owner: usize) -> Result<bool, u8> {
        let mut stack = [0; STACK];
        self.perform_on(&mut stack, condition, owner)?;
        Ok(condition.is_empty() || stack[0] != 0)
    }

    fn perform_on(&mut self, stack: &mut [i32; STACK], block: &[u8], owner: usize) -> Result<bool, u8> {
        let mut n = 0;
        for instruction in block.chunks_exact(INSTRUCTION) {
            self.pay()?;
            let a = instruction[3] as usize;
            let b = i16::from_le_bytes([instruction[4], instruction[5]]);
            match instruction[2] {
                0 => {
                    stack[n] = b as i32;
                    n += 1;
                }
                1 => {
                    stack[n] = self.image.variables[a];
                    n += 1;
                }
                2 => {
                    n -= 1;
                    self.image.variables[a] = stack[n];
                }
                10 => stack[n - 1] = (stack[n - 1] == 0) as i32,
                11 => self.note(RAISED, a)?,
                SEND => {
                    if !self.send(a as u8, b as usize, owner)? {
                        return Ok(false);
                    }
                }
                op => {
                    n -= 1;
                    stack[n - 1] = combine(op, stack[n - 1], stack[n]).ok_or(17)?;
                }
            }
        }
        Ok(true)
    }

    /// Runs the state if it is active; whether the owner is active afterwards.
    fn send(&mut self, event: u8, state: usize, owner: usize) -> Result<bool, u8> {
        if self.is_active(state) {
            if self.sends == MOST_SENDS {
                return Err(18);
            }
            self.sends += 1;
            self.run(state, event)?;
            self.sends -= 1;
        }
        Ok(self.is_active(owner))
    }
}
