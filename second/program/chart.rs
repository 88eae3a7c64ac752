//! The typed chart: states, junctions and segments that hold their own blocks, children and lists.

use super::ops::Op;
use super::tables::{SegmentRow, StateRow, Tables};

/// The root's number.
pub const ROOT: usize = 0;

pub type Block = Vec<Op>;

/// Numbers of segments in table order.
pub type SegmentList = Vec<usize>;

#[derive(Clone, Copy, PartialEq, Eq)]
pub enum Kind {
    Leaf,
    OneOf { initial: usize, keeps_history: bool },
    AllOf,
}

pub struct State {
    /// The root's is the root itself.
    pub parent: usize,
    pub kind: Kind,
    /// In ascending number.
    pub children: Vec<usize>,
    pub entry: Block,
    pub during: Block,
    pub exit: Block,
    pub outer: SegmentList,
    pub inner: SegmentList,
}

impl State {
    pub fn keeps_history(&self) -> bool {
        matches!(self.kind, Kind::OneOf { keeps_history: true, .. })
    }
}

pub struct Junction {
    pub parent: usize,
    pub segments: SegmentList,
}

#[derive(Clone, Copy, PartialEq, Eq)]
pub enum Destination {
    State(usize),
    Junction(usize),
}

pub struct Segment {
    /// 0 for any event.
    pub event: usize,
    pub destination: Destination,
    pub condition: Block,
    pub condition_action: Block,
    pub transition_action: Block,
}

pub struct Chart {
    pub states: Vec<State>,
    pub junctions: Vec<Junction>,
    pub segments: Vec<Segment>,
    /// The initial values.
    pub variables: Vec<i32>,
    /// Events are 1 to this.
    pub events: usize,
    /// Every instruction of the chart, those that stand in no block too.
    pub instructions: Vec<Op>,
}

impl Chart {
    /// Builds the chart from tables that the checker has accepted and from their decoded instructions.
    pub fn assemble(tables: Tables, instructions: Vec<Op>) -> Chart {
        let mut chart = Chart {
            states: tables.states.iter().map(|row| state(row, &instructions)).collect(),
            junctions: tables.junctions.iter().map(|&parent| Junction { parent, segments: Vec::new() }).collect(),
            segments: tables.segments.iter().map(|row| segment(row, &instructions)).collect(),
            variables: tables.variables,
            events: tables.header.events,
            instructions,
        };
        for (number, row) in tables.states.iter().enumerate().skip(1) {
            chart.states[row.parent].children.push(number);
        }
        for (number, row) in tables.segments.iter().enumerate() {
            chart.list_from(row).push(number);
        }
        chart
    }

    fn list_from(&mut self, row: &SegmentRow) -> &mut SegmentList {
        match row.source_kind {
            0 => &mut self.states[row.source].outer,
            1 => &mut self.states[row.source].inner,
            _ => &mut self.junctions[row.source].segments,
        }
    }

    /// The lowest state that is, or is above, both. Parents have smaller numbers, so the larger number goes up.
    pub fn meeting_state(&self, one: usize, other: usize) -> usize {
        let (mut one, mut other) = (one, other);
        while one != other {
            if one > other {
                one = self.states[one].parent;
            } else {
                other = self.states[other].parent;
            }
        }
        one
    }

    /// The child of `above` that is, or is above, the target.
    pub fn child_towards(&self, above: usize, target: usize) -> Option<usize> {
        let mut child = target;
        while child > above {
            let parent = self.states[child].parent;
            if parent == above {
                return Some(child);
            }
            child = parent;
        }
        None
    }
}

fn state(row: &StateRow, instructions: &[Op]) -> State {
    let [entry, during, exit] = row.blocks.map(|span| span.of(instructions).to_vec());
    let kind = match row.kind {
        0 => Kind::Leaf,
        1 => Kind::OneOf { initial: row.initial, keeps_history: row.history == 1 },
        _ => Kind::AllOf,
    };
    State { parent: row.parent, kind, children: Vec::new(), entry, during, exit, outer: Vec::new(), inner: Vec::new() }
}

fn segment(row: &SegmentRow, instructions: &[Op]) -> Segment {
    let [condition, condition_action, transition_action] = row.blocks.map(|span| span.of(instructions).to_vec());
    let destination = match row.destination_kind {
        0 => Destination::State(row.destination),
        _ => Destination::Junction(row.destination),
    };
    Segment { event: row.event, destination, condition, condition_action, transition_action }
}
