//! The chart's bytes read into rows of numbers, with refusals 1 to 5, which need no more than that.

use super::faults::{Fault, Rules};
use super::reader::Reader;
use super::refusal::{require, Refusal};
use std::ops::RangeInclusive;

pub struct Header {
    pub states: usize,
    pub junctions: usize,
    pub segments: usize,
    pub variables: usize,
    pub events: usize,
    pub outputs: usize,
    zero: u8,
    pub instructions: usize,
}

impl Header {
    const STATES: RangeInclusive<usize> = 1..=64;
    const MOST_JUNCTIONS: usize = 64;
    const MOST_SEGMENTS: usize = 256;
    const MOST_VARIABLES: usize = 32;
    const EVENTS: RangeInclusive<usize> = 1..=32;
    const MOST_OUTPUTS: usize = 32;
    const MOST_INSTRUCTIONS: usize = 1024;

    const BYTES: usize = 12;
    const STATE_BYTES: usize = 16;
    const JUNCTION_BYTES: usize = 4;
    const SEGMENT_BYTES: usize = 18;
    const VARIABLE_BYTES: usize = 6;
    const INSTRUCTION_BYTES: usize = 6;

    /// A record's fields are written, and so read, in the order of its bytes, here and in the rows below.
    fn read(reader: &mut Reader, rules: Rules) -> Result<Header, Refusal> {
        let [first, second] = reader.bytes();
        let marked = first == b'C' && (second == b'H' || rules.wrong(Fault::HalfChartMark));
        require(marked, Refusal::ChartMark)?;
        let header = Header {
            states: reader.small(),
            junctions: reader.small(),
            segments: reader.large(),
            variables: reader.small(),
            events: reader.small(),
            outputs: reader.small(),
            zero: reader.byte(),
            instructions: reader.large(),
        };
        require(header.counts_in_range(rules), Refusal::Count)?;
        Ok(header)
    }

    fn counts_in_range(&self, rules: Rules) -> bool {
        let most_junctions = Self::MOST_JUNCTIONS + usize::from(rules.wrong(Fault::SixtyFiveJunctions));
        Self::STATES.contains(&self.states)
            && self.junctions <= most_junctions
            && self.segments <= Self::MOST_SEGMENTS
            && self.variables <= Self::MOST_VARIABLES
            && (Self::EVENTS.contains(&self.events) || self.events == 0 && rules.wrong(Fault::NoEventsAllowed))
            && self.outputs <= Self::MOST_OUTPUTS
            && self.instructions <= Self::MOST_INSTRUCTIONS
    }

    fn total_bytes(&self) -> usize {
        Self::BYTES
            + Self::STATE_BYTES * self.states
            + Self::JUNCTION_BYTES * self.junctions
            + Self::SEGMENT_BYTES * self.segments
            + Self::VARIABLE_BYTES * self.variables
            + Self::INSTRUCTION_BYTES * self.instructions
    }
}

/// A block as the chart's bytes name it: where it starts among the instructions and how many it has.
#[derive(Clone, Copy)]
pub struct Span {
    pub start: usize,
    pub count: usize,
}

impl Span {
    fn read(reader: &mut Reader) -> Span {
        Span { start: reader.large(), count: reader.small() }
    }

    /// The part of a list that the span names; nothing where it names none.
    pub fn of<T>(self, list: &[T]) -> &[T] {
        list.get(self.start..self.start + self.count).unwrap_or(&[])
    }
}

/// What a block is for; the checker asks different things of each.
#[derive(Clone, Copy, PartialEq, Eq)]
pub enum Role {
    Entry,
    During,
    Exit,
    Condition,
    ConditionAction,
    TransitionAction,
}

const STATE_ROLES: [Role; 3] = [Role::Entry, Role::During, Role::Exit];
const SEGMENT_ROLES: [Role; 3] = [Role::Condition, Role::ConditionAction, Role::TransitionAction];

pub struct StateRow {
    pub parent: usize,
    pub kind: u8,
    pub initial: usize,
    pub history: u8,
    /// Entry, during and exit, as in `STATE_ROLES`.
    pub blocks: [Span; 3],
}

pub struct SegmentRow {
    pub source_kind: u8,
    pub source: usize,
    pub destination_kind: u8,
    pub destination: usize,
    pub event: usize,
    /// Condition, condition action and transition action, as in `SEGMENT_ROLES`.
    pub blocks: [Span; 3],
}

pub struct InstructionRow {
    pub op: u8,
    pub a: u8,
    pub b: i16,
}

pub struct Tables {
    pub header: Header,
    pub states: Vec<StateRow>,
    /// A junction has only its parent.
    pub junctions: Vec<usize>,
    pub segments: Vec<SegmentRow>,
    /// A variable has only its initial value.
    pub variables: Vec<i32>,
    pub instructions: Vec<InstructionRow>,
}

impl Tables {
    pub fn read(bytes: &[u8], rules: Rules) -> Result<Tables, Refusal> {
        require(bytes.len() >= Header::BYTES || rules.wrong(Fault::ShortHeaderRead), Refusal::ShortChart)?;
        let reader = &mut Reader::over(bytes);
        let header = Header::read(reader, rules)?;
        let total = header.total_bytes();
        let longer = bytes.len() > total && rules.wrong(Fault::LongerChartAllowed);
        require(bytes.len() == total || longer, Refusal::Length)?;
        require(header.zero == 0, Refusal::MarkOrZero)?;
        Ok(Tables {
            states: rows(header.states, || read_state(reader))?,
            junctions: rows(header.junctions, || read_junction(reader, rules))?,
            segments: rows(header.segments, || read_segment(reader))?,
            variables: rows(header.variables, || read_variable(reader, rules))?,
            instructions: rows(header.instructions, || read_instruction(reader))?,
            header,
        })
    }

    /// Every block of the chart with what it is for.
    pub fn blocks(&self) -> impl Iterator<Item = (Role, Span)> + '_ {
        let of_states = self.states.iter().flat_map(|row| STATE_ROLES.into_iter().zip(row.blocks));
        let of_segments = self.segments.iter().flat_map(|row| SEGMENT_ROLES.into_iter().zip(row.blocks));
        of_states.chain(of_segments)
    }
}

fn rows<T>(count: usize, mut read_row: impl FnMut() -> Result<T, Refusal>) -> Result<Vec<T>, Refusal> {
    let mut rows = Vec::with_capacity(count);
    for _ in 0..count {
        rows.push(read_row()?);
    }
    Ok(rows)
}

fn read_mark(reader: &mut Reader, mark: &[u8; 2]) -> Result<(), Refusal> {
    require(reader.bytes() == *mark, Refusal::MarkOrZero)
}

fn read_spans(reader: &mut Reader) -> [Span; 3] {
    std::array::from_fn(|_| Span::read(reader))
}

fn read_state(reader: &mut Reader) -> Result<StateRow, Refusal> {
    read_mark(reader, b"ST")?;
    let row = StateRow {
        parent: reader.small(),
        kind: reader.byte(),
        initial: reader.small(),
        history: reader.byte(),
        blocks: read_spans(reader),
    };
    require(reader.byte() == 0, Refusal::MarkOrZero)?;
    Ok(row)
}

fn read_junction(reader: &mut Reader, rules: Rules) -> Result<usize, Refusal> {
    read_mark(reader, b"JN")?;
    let parent = reader.small();
    require(reader.byte() == 0 || rules.wrong(Fault::JunctionZeroUntested), Refusal::MarkOrZero)?;
    Ok(parent)
}

fn read_segment(reader: &mut Reader) -> Result<SegmentRow, Refusal> {
    read_mark(reader, b"TR")?;
    Ok(SegmentRow {
        source_kind: reader.byte(),
        source: reader.small(),
        destination_kind: reader.byte(),
        destination: reader.small(),
        event: reader.small(),
        blocks: {
            require(reader.large() == 0, Refusal::MarkOrZero)?;
            read_spans(reader)
        },
    })
}

fn read_variable(reader: &mut Reader, rules: Rules) -> Result<i32, Refusal> {
    let marked = reader.bytes() == *b"VA";
    require(marked || rules.wrong(Fault::VariableMarkUntested), Refusal::MarkOrZero)?;
    Ok(reader.value())
}

fn read_instruction(reader: &mut Reader) -> Result<InstructionRow, Refusal> {
    read_mark(reader, b"IN")?;
    Ok(InstructionRow { op: reader.byte(), a: reader.byte(), b: i16::from_le_bytes(reader.bytes()) })
}
