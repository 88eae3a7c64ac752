//! The checker of charts again, written plainly from the paper in another language, to compare answers and time with.

const HEADER: usize = 12;

/// The counts of a chart's header, and where its tables stand.
struct Chart<'a> {
    bytes: &'a [u8],
    states: usize,
    junctions: usize,
    segments: usize,
    variables: usize,
    events: usize,
    outputs: usize,
    instructions: usize,
}

#[derive(Clone, Copy, PartialEq)]
enum Place {
    Condition,
    Action,
    SendingAction,
}

#[derive(Clone, Copy)]
struct Block {
    start: usize,
    count: usize,
    place: Place,
}

fn u16_at(bytes: &[u8], at: usize) -> usize {
    u16::from_le_bytes([bytes[at], bytes[at + 1]]) as usize
}

impl<'a> Chart<'a> {
    fn read(bytes: &'a [u8]) -> Chart<'a> {
        Chart {
            bytes,
            states: bytes[2] as usize,
            junctions: bytes[3] as usize,
            segments: u16_at(bytes, 4),
            variables: bytes[6] as usize,
            events: bytes[7] as usize,
            outputs: bytes[8] as usize,
            instructions: u16_at(bytes, 10),
        }
    }

    fn state_at(&self, s: usize) -> usize {
        HEADER + 16 * s
    }

    fn junction_at(&self, j: usize) -> usize {
        self.state_at(self.states) + 4 * j
    }

    fn segment_at(&self, t: usize) -> usize {
        self.junction_at(self.junctions) + 18 * t
    }

    fn variable_at(&self, v: usize) -> usize {
        self.segment_at(self.segments) + 6 * v
    }

    fn instruction_at(&self, i: usize) -> usize {
        self.variable_at(self.variables) + 6 * i
    }

    fn parent(&self, s: usize) -> usize {
        self.bytes[self.state_at(s) + 2] as usize
    }

    fn kind(&self, s: usize) -> u8 {
        self.bytes[self.state_at(s) + 3]
    }

    fn block(&self, at: usize, place: Place) -> Block {
        Block { start: u16_at(self.bytes, at), count: self.bytes[at + 2] as usize, place }
    }

    fn state_blocks(&self, s: usize) -> [Block; 3] {
        let at = self.state_at(s);
        [self.block(at + 6, Place::Action), self.block(at + 9, Place::SendingAction), self.block(at + 12, Place::Action)]
    }

    fn segment_blocks(&self, t: usize) -> [Block; 3] {
        let at = self.segment_at(t);
        [self.block(at + 9, Place::Condition), self.block(at + 12, Place::SendingAction), self.block(at + 15, Place::Action)]
    }

    fn every_block(&self, right: impl Fn(Block) -> bool) -> bool {
        (0..self.states).all(|s| self.state_blocks(s).into_iter().all(&right))
            && (0..self.segments).all(|t| self.segment_blocks(t).into_iter().all(&right))
    }

    fn op(&self, i: usize) -> u8 {
        self.bytes[self.instruction_at(i) + 2]
    }

    fn counts_right(&self) -> bool {
        (1..=64).contains(&self.states)
            && self.junctions <= 64
            && self.segments <= 256
            && self.variables <= 32
            && (1..=32).contains(&self.events)
            && self.outputs <= 32
            && self.instructions <= 1024
    }

    fn record_right(&self, at: usize, mark: &[u8; 2], zeros: &[usize]) -> bool {
        self.bytes[at..at + 2] == mark[..] && zeros.iter().all(|z| self.bytes[at + z] == 0)
    }

    fn records_right(&self) -> bool {
        self.bytes[9] == 0
            && (0..self.states).all(|s| self.record_right(self.state_at(s), b"ST", &[15]))
            && (0..self.junctions).all(|j| self.record_right(self.junction_at(j), b"JN", &[3]))
            && (0..self.segments).all(|t| self.record_right(self.segment_at(t), b"TR", &[7, 8]))
            && (0..self.variables).all(|v| self.record_right(self.variable_at(v), b"VA", &[]))
            && (0..self.instructions).all(|i| self.record_right(self.instruction_at(i), b"IN", &[]))
    }

    fn depth_right(&self, s: usize) -> bool {
        let mut at = s;
        for _ in 0..=8 {
            if at == 0 {
                return true;
            }
            at = self.parent(at);
        }
        false
    }

    fn state_right(&self, s: usize) -> bool {
        let at = self.state_at(s);
        let (kind, initial, history) = (self.kind(s), self.bytes[at + 4] as usize, self.bytes[at + 5]);
        let parent_right = if s == 0 { self.parent(s) == 0 } else { self.parent(s) < s };
        let is_child = |k: usize| 0 < k && k < self.states && self.parent(k) == s;
        let has_child = (1..self.states).any(is_child);
        kind <= 2
            && parent_right
            && self.depth_right(s)
            && (kind == 0) != has_child
            && (if kind == 1 { is_child(initial) } else { initial == 0 })
            && history <= (kind == 1) as u8
    }

    fn states_right(&self) -> bool {
        (0..self.states).all(|s| self.state_right(s))
            && (0..self.junctions).all(|j| (self.bytes[self.junction_at(j) + 2] as usize) < self.states)
    }

    fn segment_right(&self, t: usize) -> bool {
        let at = self.segment_at(t);
        let state = |n: u8| 0 < n && (n as usize) < self.states;
        let junction = |n: u8| (n as usize) < self.junctions;
        let source_right = match self.bytes[at + 2] {
            0 | 1 => state(self.bytes[at + 3]),
            2 => junction(self.bytes[at + 3]),
            _ => false,
        };
        let destination_right = match self.bytes[at + 4] {
            0 => state(self.bytes[at + 5]),
            1 => junction(self.bytes[at + 5]),
            _ => false,
        };
        source_right && destination_right && self.bytes[at + 6] as usize <= self.events
    }

    fn block_right(&self, block: Block) -> bool {
        if block.count == 0 {
            block.start == 0
        } else {
            block.start + block.count <= self.instructions
        }
    }

    fn instruction_right(&self, i: usize) -> bool {
        let at = self.instruction_at(i);
        let a = self.bytes[at + 3] as usize;
        let b = i16::from_le_bytes([self.bytes[at + 4], self.bytes[at + 5]]);
        match self.bytes[at + 2] {
            0 => a == 0,
            1 | 2 => a < self.variables && b == 0,
            3..=10 => a == 0 && b == 0,
            11 => 1 <= a && a <= self.outputs && b == 0,
            12 => 1 <= a && a <= self.events && 0 <= b && (b as usize) < self.states,
            _ => false,
        }
    }

    fn stack_right(&self, block: Block) -> bool {
        let mut depth = 0;
        for i in block.start..block.start + block.count {
            let (takes, gives) = match self.op(i) {
                0 | 1 => (0, 1),
                2 => (1, 0),
                3..=9 => (2, 1),
                10 => (1, 1),
                _ => (0, 0),
            };
            if depth < takes || 16 < depth - takes + gives {
                return false;
            }
            depth = depth - takes + gives;
        }
        depth == (block.place == Place::Condition && block.count != 0) as usize
    }

    fn nothing_barred(&self, block: Block) -> bool {
        (block.start..block.start + block.count).all(|i| match self.op(i) {
            2 | 11 => block.place != Place::Condition,
            12 => block.place == Place::SendingAction,
            _ => true,
        })
    }
}

/// The lowest refusal that applies, 1 to 11, and 0 for a chart that is taken.
pub fn refusal(bytes: &[u8]) -> u8 {
    if bytes.len() < HEADER {
        return 1;
    }
    if bytes[..2] != *b"CH" {
        return 2;
    }
    let chart = Chart::read(bytes);
    if !chart.counts_right() {
        return 3;
    }
    if bytes.len() != chart.instruction_at(chart.instructions) {
        return 4;
    }
    if !chart.records_right() {
        return 5;
    }
    if !chart.states_right() {
        return 6;
    }
    if !(0..chart.segments).all(|t| chart.segment_right(t)) {
        return 7;
    }
    let root_empty = chart.state_blocks(0).into_iter().all(|block| block.count == 0);
    if !chart.every_block(|block| chart.block_right(block)) || !root_empty {
        return 8;
    }
    if !(0..chart.instructions).all(|i| chart.instruction_right(i)) {
        return 9;
    }
    if !chart.every_block(|block| chart.stack_right(block)) {
        return 10;
    }
    if !chart.every_block(|block| chart.nothing_barred(block)) {
        return 11;
    }
    0
}
