//! The trace of one step: its items, their room and their bytes.

use super::faults::{Fault, Rules};
use super::refusal::{require, Refusal};

#[derive(Clone, Copy, PartialEq, Eq)]
pub enum Item {
    Entered = 1,
    Left = 2,
    During = 3,
    Passed = 4,
    Transition = 5,
    Raised = 6,
}

pub struct Trace {
    items: Vec<u32>,
    room: usize,
}

impl Trace {
    const MOST_ITEMS: usize = 256;
    pub const ITEM_BYTES: usize = 4;
    const KIND_WEIGHT: u32 = 65_536;

    pub fn with_room_of(lent: &[u8], rules: Rules) -> Trace {
        let most = Self::MOST_ITEMS + usize::from(rules.wrong(Fault::RoomForOneMore));
        let fitting =
            if rules.wrong(Fault::RoomRoundedUp) { lent.len().div_ceil(Self::ITEM_BYTES) } else { lent.len() / Self::ITEM_BYTES };
        Trace { items: Vec::new(), room: fitting.min(most) }
    }

    pub fn add(&mut self, item: Item, number: usize) -> Result<(), Refusal> {
        require(self.items.len() < self.room, Refusal::TraceRoom)?;
        self.items.push(item as u32 * Self::KIND_WEIGHT + number as u32);
        Ok(())
    }

    pub fn count(&self) -> usize {
        self.items.len()
    }

    /// The bytes past the items stay as they are.
    pub fn write(&self, lent: &mut [u8]) {
        let bytes = self.items.iter().flat_map(|item| item.to_le_bytes());
        for (place, byte) in lent.iter_mut().zip(bytes) {
            *place = byte;
        }
    }
}
