//! The refusals of the paper and their numbers.

#[derive(Clone, Copy, PartialEq, Eq, Debug)]
pub enum Refusal {
    ShortChart = 1,
    ChartMark = 2,
    Count = 3,
    Length = 4,
    MarkOrZero = 5,
    StateRule = 6,
    SegmentRule = 7,
    BlockRule = 8,
    InstructionRule = 9,
    StackUse = 10,
    BarredOp = 11,
    Lift = 12,
    Image = 13,
    Event = 14,
    Allowance = 15,
    Units = 16,
    Arithmetic = 17,
    OpenSends = 18,
    PathLength = 19,
    TraceRoom = 20,
    BoundSend = 21,
    BoundLoop = 22,
    BoundLimit = 23,
}

impl Refusal {
    pub fn number(self) -> u64 {
        self as u64
    }
}

/// Most rules are a condition that must hold and the refusal that is given when it does not.
pub fn require(holds: bool, refusal: Refusal) -> Result<(), Refusal> {
    if holds {
        Ok(())
    } else {
        Err(refusal)
    }
}
