//! The tables of a chart that is taken, read from its bytes: fields, blocks, children, the segments of an edge or a junction.

const STATE: usize = 16;
const JUNCTION: usize = 4;
const SEGMENT: usize = 18;
const VARIABLE: usize = 6;
pub const INSTRUCTION: usize = 6;

pub const ONE_OF: u8 = 1;
pub const ALL_OF: u8 = 2;

pub const OUTER: u8 = 0;
pub const INNER: u8 = 1;
pub const FROM_JUNCTION: u8 = 2;

pub const SEND: u8 = 12;

pub fn i32_at(bytes: &[u8], at: usize) -> i32 {
    i32::from_le_bytes([bytes[at], bytes[at + 1], bytes[at + 2], bytes[at + 3]])
}

fn u16_at(bytes: &[u8], at: usize) -> usize {
    u16::from_le_bytes([bytes[at], bytes[at + 1]]) as usize
}

pub fn has(set: u64, n: usize) -> bool {
    n < 64 && set >> n & 1 == 1
}

/// An accepted chart's tables, and the children of each state.
pub struct Chart<'a> {
    states: &'a [u8],
    junctions: &'a [u8],
    segments: &'a [u8],
    variables: &'a [u8],
    instructions: &'a [u8],
    pub events: u32,
    pub children: [u64; 64],
}

pub enum Destination {
    State(usize),
    Junction(usize),
}

impl<'a> Chart<'a> {
    pub fn read(bytes: &'a [u8]) -> Chart<'a> {
        let (states, rest) = bytes[12..].split_at(STATE * bytes[2] as usize);
        let (junctions, rest) = rest.split_at(JUNCTION * bytes[3] as usize);
        let (segments, rest) = rest.split_at(SEGMENT * u16_at(bytes, 4));
        let (variables, instructions) = rest.split_at(VARIABLE * bytes[6] as usize);
        let mut children = [0; 64];
        for (s, record) in states.chunks_exact(STATE).enumerate().skip(1) {
            children[record[2] as usize] |= 1 << s;
        }
        Chart { states, junctions, segments, variables, instructions, events: bytes[7] as u32, children }
    }

    pub fn state_count(&self) -> usize {
        self.states.len() / STATE
    }

    pub fn junction_count(&self) -> usize {
        self.junctions.len() / JUNCTION
    }

    pub fn segment_count(&self) -> usize {
        self.segments.len() / SEGMENT
    }

    pub fn variable_count(&self) -> usize {
        self.variables.len() / VARIABLE
    }

    pub fn initial_value(&self, v: usize) -> i32 {
        i32_at(self.variables, VARIABLE * v + 2)
    }

    pub fn has_send(&self) -> bool {
        self.instructions.chunks_exact(INSTRUCTION).any(|i| i[2] == SEND)
    }

    fn state(&self, s: usize) -> &'a [u8] {
        &self.states[STATE * s..STATE * (s + 1)]
    }

    pub fn parent(&self, s: usize) -> usize {
        self.state(s)[2] as usize
    }

    pub fn kind(&self, s: usize) -> u8 {
        self.state(s)[3]
    }

    pub fn initial(&self, s: usize) -> usize {
        self.state(s)[4] as usize
    }

    pub fn keeps_history(&self, s: usize) -> bool {
        self.state(s)[5] == 1
    }

    /// The children of a state in ascending number.
    pub fn children(&self, s: usize) -> impl DoubleEndedIterator<Item = usize> {
        let children = self.children[s];
        (1..self.state_count()).filter(move |&c| has(children, c))
    }

    fn segment(&self, t: usize) -> &'a [u8] {
        &self.segments[SEGMENT * t..SEGMENT * (t + 1)]
    }

    /// The segments of an edge or a junction in table order.
    pub fn segments_of(&self, kind: u8, number: usize) -> impl Iterator<Item = usize> + 'a {
        let records = self.segments.chunks_exact(SEGMENT).enumerate();
        records.filter(move |(_, t)| t[2] == kind && t[3] as usize == number).map(|(n, _)| n)
    }

    pub fn event(&self, t: usize) -> u8 {
        self.segment(t)[6]
    }

    pub fn destination(&self, t: usize) -> Destination {
        let record = self.segment(t);
        match record[4] {
            0 => Destination::State(record[5] as usize),
            _ => Destination::Junction(record[5] as usize),
        }
    }

    fn block(&self, at: &[u8]) -> &'a [u8] {
        let start = u16_at(at, 0);
        &self.instructions[INSTRUCTION * start..INSTRUCTION * (start + at[2] as usize)]
    }

    pub fn entry(&self, s: usize) -> &'a [u8] {
        self.block(&self.state(s)[6..])
    }

    pub fn during(&self, s: usize) -> &'a [u8] {
        self.block(&self.state(s)[9..])
    }

    pub fn exit(&self, s: usize) -> &'a [u8] {
        self.block(&self.state(s)[12..])
    }

    pub fn condition(&self, t: usize) -> &'a [u8] {
        self.block(&self.segment(t)[9..])
    }

    pub fn condition_action(&self, t: usize) -> &'a [u8] {
        self.block(&self.segment(t)[12..])
    }

    pub fn transition_action(&self, t: usize) -> &'a [u8] {
        self.block(&self.segment(t)[15..])
    }

    /// The lowest state that is, or is above, both: parents have smaller numbers.
    pub fn common(&self, mut a: usize, mut b: usize) -> usize {
        while a != b {
            if a > b {
                a = self.parent(a);
            } else {
                b = self.parent(b);
            }
        }
        a
    }

    /// The child of s that is, or is above, the target.
    pub fn child_towards(&self, s: usize, target: usize) -> Option<usize> {
        let mut at = target;
        while at > s {
            let parent = self.parent(at);
            if parent == s {
                return Some(at);
            }
            at = parent;
        }
        None
    }

    pub fn arena(&self, source: usize, target: usize, path: &[usize]) -> usize {
        let mut arena = self.common(source, target);
        for &t in path {
            if let Destination::Junction(j) = self.destination(t) {
                arena = self.common(arena, self.junctions[JUNCTION * j + 2] as usize);
            }
        }
        if source == target && arena == source {
            self.parent(source)
        } else {
            arena
        }
    }
}
