//! A chart to be: its fields, short ways to write it, and its bytes. Nothing here keeps it from being a wrong chart.
#![allow(dead_code)] // the generator, the tests and the benchmarks each use a part of it

pub const LEAF: u8 = 0;
pub const ONE_OF: u8 = 1;
pub const ALL_OF: u8 = 2;

pub const ENTRY: usize = 0;
pub const DURING: usize = 1;
pub const EXIT: usize = 2;

pub const CONDITION: usize = 0;
pub const CONDITION_ACTION: usize = 1;
pub const TRANSITION_ACTION: usize = 2;

#[derive(Clone, Copy, Default)]
pub struct Block {
    pub start: u16,
    pub count: u8,
}

impl Block {
    pub fn new(start: usize, count: usize) -> Block {
        Block { start: start as u16, count: count as u8 }
    }

    fn bytes(self) -> [u8; 3] {
        let [low, high] = self.start.to_le_bytes();
        [low, high, self.count]
    }
}

#[derive(Clone, Default)]
pub struct State {
    pub parent: u8,
    pub kind: u8,
    pub initial: u8,
    pub history: u8,
    pub blocks: [Block; 3],
}

/// The kind and the number of a segment's source or destination.
pub type End = (u8, u8);

pub fn outer(state: usize) -> End {
    (0, state as u8)
}

pub fn inner(state: usize) -> End {
    (1, state as u8)
}

pub fn from_junction(junction: usize) -> End {
    (2, junction as u8)
}

pub fn to_state(state: usize) -> End {
    (0, state as u8)
}

pub fn to_junction(junction: usize) -> End {
    (1, junction as u8)
}

#[derive(Clone, Default)]
pub struct Segment {
    pub source: End,
    pub destination: End,
    pub event: u8,
    pub blocks: [Block; 3],
}

/// An op with its operands a and b.
pub type Instruction = (u8, u8, i16);

pub const ADD: Instruction = (3, 0, 0);
pub const SUBTRACT: Instruction = (4, 0, 0);
pub const MULTIPLY: Instruction = (5, 0, 0);
pub const QUOTIENT: Instruction = (6, 0, 0);
pub const REMAINDER: Instruction = (7, 0, 0);
pub const LESS: Instruction = (8, 0, 0);
pub const EQUAL: Instruction = (9, 0, 0);
pub const NOT: Instruction = (10, 0, 0);

pub fn push(value: i16) -> Instruction {
    (0, 0, value)
}

pub fn load(variable: usize) -> Instruction {
    (1, variable as u8, 0)
}

pub fn store(variable: usize) -> Instruction {
    (2, variable as u8, 0)
}

pub fn raise(output: usize) -> Instruction {
    (11, output as u8, 0)
}

pub fn send(event: usize, state: usize) -> Instruction {
    (12, event as u8, state as i16)
}

/// What a state or a segment is given to do: instructions of its own, or a block that others may have as well.
pub trait Code {
    fn block_in(self, draft: &mut Draft) -> Block;
}

impl<C: AsRef<[Instruction]>> Code for C {
    fn block_in(self, draft: &mut Draft) -> Block {
        draft.block(self.as_ref())
    }
}

impl Code for Block {
    fn block_in(self, _: &mut Draft) -> Block {
        self
    }
}

/// Where a table stands in the chart's bytes, the length of its records, and which bytes of a record have to be zero.
#[derive(Clone, Copy)]
pub struct Table {
    pub at: usize,
    pub count: usize,
    pub length: usize,
    pub zeros: &'static [usize],
}

#[derive(Clone, Default)]
pub struct Draft {
    pub states: Vec<State>,
    pub junctions: Vec<u8>,
    pub segments: Vec<Segment>,
    pub variables: Vec<i32>,
    pub events: u8,
    pub outputs: u8,
    pub code: Vec<Instruction>,
}

impl Draft {
    pub const HEADER: usize = 12;
    pub const STATE: usize = 16;
    pub const STATES: usize = 64;
    pub const DEPTH: usize = 8;
    pub const JUNCTIONS: usize = 64;
    pub const SEGMENTS: usize = 256;
    pub const VARIABLES: usize = 32;
    pub const EVENTS: usize = 32;
    pub const OUTPUTS: usize = 32;
    pub const CODE: usize = 1024;
    pub const BLOCK: usize = 255;
    pub const STACK: usize = 16;

    pub fn new(events: usize, outputs: usize) -> Draft {
        Draft { events: events as u8, outputs: outputs as u8, ..Draft::default() }
    }

    /// A root of this kind over so many leaves, the first of them the initial one.
    pub fn over_leaves(kind: u8, leaves: usize) -> Draft {
        let mut draft = Draft::new(3, 2);
        draft.state(0, kind, (kind == ONE_OF) as usize).leaves(0, leaves);
        draft
    }

    /// The paper's chart A.
    pub fn chart_a() -> Draft {
        let mut draft = Draft::new(2, 1);
        draft.state(0, ONE_OF, 1).leaves(0, 2).entry(&[raise(1)]).segment(outer(1), to_state(2), 1);
        draft
    }

    pub fn children(&self, state: usize) -> Vec<usize> {
        (1..self.states.len()).filter(|&s| self.states[s].parent as usize == state).collect()
    }

    pub fn state(&mut self, parent: usize, kind: u8, initial: usize) -> &mut Draft {
        self.states.push(State { parent: parent as u8, kind, initial: initial as u8, ..State::default() });
        self
    }

    pub fn leaves(&mut self, parent: usize, count: usize) -> &mut Draft {
        for _ in 0..count {
            self.state(parent, LEAF, 0);
        }
        self
    }

    /// The last state keeps history.
    pub fn history(&mut self) -> &mut Draft {
        self.last_state().history = 1;
        self
    }

    pub fn entry(&mut self, code: impl Code) -> &mut Draft {
        self.state_block(ENTRY, code)
    }

    pub fn during(&mut self, code: impl Code) -> &mut Draft {
        self.state_block(DURING, code)
    }

    pub fn exit(&mut self, code: impl Code) -> &mut Draft {
        self.state_block(EXIT, code)
    }

    fn state_block(&mut self, place: usize, code: impl Code) -> &mut Draft {
        let block = code.block_in(self);
        self.last_state().blocks[place] = block;
        self
    }

    fn last_state(&mut self) -> &mut State {
        self.states.last_mut().expect("a state comes first")
    }

    pub fn junction(&mut self, parent: usize) -> &mut Draft {
        self.junctions.push(parent as u8);
        self
    }

    pub fn segment(&mut self, source: End, destination: End, event: usize) -> &mut Draft {
        self.segments.push(Segment { source, destination, event: event as u8, ..Segment::default() });
        self
    }

    pub fn condition(&mut self, code: impl Code) -> &mut Draft {
        self.segment_block(CONDITION, code)
    }

    pub fn condition_action(&mut self, code: impl Code) -> &mut Draft {
        self.segment_block(CONDITION_ACTION, code)
    }

    pub fn transition_action(&mut self, code: impl Code) -> &mut Draft {
        self.segment_block(TRANSITION_ACTION, code)
    }

    /// What the last segment does at one of its three places.
    pub fn segment_block(&mut self, place: usize, code: impl Code) -> &mut Draft {
        let block = code.block_in(self);
        self.segments.last_mut().expect("a segment comes first").blocks[place] = block;
        self
    }

    pub fn variable(&mut self, initial: i32) -> &mut Draft {
        self.variables.push(initial);
        self
    }

    /// New instructions, and the block that they are.
    pub fn block(&mut self, code: &[Instruction]) -> Block {
        let block = Block::new(self.code.len(), code.len());
        self.code.extend(code);
        block
    }

    pub fn bytes(&self) -> Vec<u8> {
        let mut bytes = vec![b'C', b'H', self.states.len() as u8, self.junctions.len() as u8];
        bytes.extend((self.segments.len() as u16).to_le_bytes());
        bytes.extend([self.variables.len() as u8, self.events, self.outputs, 0]);
        bytes.extend((self.code.len() as u16).to_le_bytes());
        for state in &self.states {
            bytes.extend([b'S', b'T', state.parent, state.kind, state.initial, state.history]);
            bytes.extend(state.blocks.map(Block::bytes).concat());
            bytes.push(0);
        }
        self.junctions.iter().for_each(|&parent| bytes.extend([b'J', b'N', parent, 0]));
        for segment in &self.segments {
            let (source, destination) = (segment.source, segment.destination);
            bytes.extend([b'T', b'R', source.0, source.1, destination.0, destination.1, segment.event, 0, 0]);
            bytes.extend(segment.blocks.map(Block::bytes).concat());
        }
        for value in &self.variables {
            bytes.extend(b"VA");
            bytes.extend(value.to_le_bytes());
        }
        for &(op, a, b) in &self.code {
            bytes.extend([b'I', b'N', op, a]);
            bytes.extend(b.to_le_bytes());
        }
        bytes
    }

    /// The tables behind the header, without those that have no records.
    pub fn tables(&self) -> Vec<Table> {
        let tables: [(usize, usize, &[usize]); 5] = [
            (self.states.len(), Draft::STATE, &[15]),
            (self.junctions.len(), 4, &[3]),
            (self.segments.len(), 18, &[7, 8]),
            (self.variables.len(), 6, &[]),
            (self.code.len(), 6, &[]),
        ];
        let mut at = Draft::HEADER;
        let mut filled = Vec::new();
        for (count, length, zeros) in tables.into_iter().filter(|table| table.0 > 0) {
            filled.push(Table { at, count, length, zeros });
            at += count * length;
        }
        filled
    }
}
