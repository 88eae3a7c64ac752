//! One lift's image: which bytes are accepted, the fresh image, and the way back to bytes.

use super::chart::{Chart, Kind, ROOT};
use super::faults::{Fault, Rules};
use super::reader::Reader;
use super::refusal::{require, Refusal};
use std::ops::Range;

pub struct Image {
    /// Whether each state is active.
    pub active: Vec<bool>,
    /// The child each state has recorded.
    pub history: Vec<Option<usize>>,
    pub variables: Vec<i32>,
}

impl Image {
    const MARK: [u8; 2] = *b"IM";
    const STATE_PLACES: usize = 64;
    const VARIABLE_PLACES: usize = 32;
    const ACTIVE_START: usize = 2;
    pub const HISTORY: Range<usize> = 10..74;
    const VARIABLES_START: usize = 74;
    const VALUE_BYTES: usize = 4;
    pub const BYTES: usize = 202;

    pub fn fresh(chart: &Chart) -> Image {
        Image {
            active: vec![false; chart.states.len()],
            history: vec![None; chart.states.len()],
            variables: chart.variables.clone(),
        }
    }

    pub fn accept(part: &[u8], chart: &Chart, rules: Rules) -> Result<Image, Refusal> {
        let mut reader = Reader::over(part);
        let marked = reader.bytes() == Self::MARK || rules.wrong(Fault::ImageMarkUntested);
        let bits = u64::from_le_bytes(reader.bytes());
        let mut active: Vec<bool> = (0..Self::STATE_PLACES).map(|place| bits >> place & 1 == 1).collect();
        let mut history: Vec<Option<usize>> = (0..Self::STATE_PLACES).map(|_| recorded(reader.small())).collect();
        let mut variables: Vec<i32> = (0..Self::VARIABLE_PLACES).map(|_| reader.value()).collect();

        let no_bits = active.drain(chart.states.len()..).all(|bit| !bit) || rules.wrong(Fault::BitsBeyondCountAllowed);
        let no_history = history.drain(chart.states.len()..).all(|child| child.is_none());
        let no_values =
            variables.drain(chart.variables.len()..).all(|value| value == 0) || rules.wrong(Fault::VariablesBeyondCountAllowed);

        let image = Image { active, history, variables };
        let accepted = marked && no_bits && no_history && no_values && image.fits(chart, rules);
        require(accepted, Refusal::Image)?;
        Ok(image)
    }

    /// No state is active before the start, and the root is active ever after.
    pub fn started(&self) -> bool {
        self.active.iter().any(|&active| active)
    }

    fn fits(&self, chart: &Chart, rules: Rules) -> bool {
        let mut states = 0..chart.states.len();
        if !states.clone().all(|state| self.history_fits(state, chart, rules)) {
            return false;
        }
        if !self.started() {
            return self.history.iter().all(Option::is_none) || rules.wrong(Fault::UnstartedHistoryAllowed);
        }
        self.active[ROOT] && states.all(|state| self.children_fit(state, chart, rules))
    }

    fn history_fits(&self, state: usize, chart: &Chart, rules: Rules) -> bool {
        let Some(child) = self.history[state] else { return true };
        let kept = chart.states[state].keeps_history() || rules.wrong(Fault::UnkeptHistoryAllowed);
        let is_child = chart.states[state].children.contains(&child);
        let later = child > state && child < chart.states.len();
        kept && (is_child || later && rules.wrong(Fault::HistoryOfNoChildAllowed))
    }

    /// A one-of state has one active child, an all-of state only active ones, and an inactive state none.
    fn children_fit(&self, state: usize, chart: &Chart, rules: Rules) -> bool {
        let children = &chart.states[state].children;
        let active = children.iter().filter(|&&child| self.active[child]).count();
        if !self.active[state] {
            return active == 0 || rules.wrong(Fault::OrphanActiveAllowed);
        }
        match chart.states[state].kind {
            Kind::Leaf => true,
            Kind::OneOf { .. } => active == 1 || active > 1 && rules.wrong(Fault::SeveralActiveChildrenAllowed),
            Kind::AllOf => active == children.len() || rules.wrong(Fault::PartlyActiveAllOfAllowed),
        }
    }

    pub fn bytes(&self) -> [u8; Self::BYTES] {
        let mut bytes = [0; Self::BYTES];
        bytes[..Self::ACTIVE_START].copy_from_slice(&Self::MARK);
        for (state, &active) in self.active.iter().enumerate() {
            bytes[Self::ACTIVE_START + state / 8] |= u8::from(active) << (state % 8);
        }
        for (place, child) in bytes[Self::HISTORY].iter_mut().zip(&self.history) {
            *place = child.unwrap_or(0) as u8;
        }
        for (place, value) in bytes[Self::VARIABLES_START..].chunks_exact_mut(Self::VALUE_BYTES).zip(&self.variables) {
            place.copy_from_slice(&value.to_le_bytes());
        }
        bytes
    }
}

/// State 0 is nobody's child, so 0 can stand for none.
fn recorded(byte: usize) -> Option<usize> {
    (byte != 0).then_some(byte)
}

#[cfg(test)]
mod tests {
    use super::super::trial::*;
    use crate::draft::*;

    /// A one-of root with history over leaf 1 and all-of 2, whose leaves are 3 and 4; one variable.
    fn chart() -> Draft {
        let mut chart = Draft::new(1, 0);
        chart.variable(7).state(0, ONE_OF, 1).history().leaves(0, 1).state(0, ALL_OF, 0).leaves(2, 2);
        chart
    }

    fn refusal(active: u8, root_history: u8) -> u64 {
        let mut lift = Lift::fresh(&chart());
        lift.board[2] = active;
        lift.board[10] = root_history;
        lift.step(1, ENOUGH).0
    }

    #[test]
    fn shapes() {
        assert_eq!(refusal(0b00000, 0), 0);
        assert_eq!(refusal(0b00000, 1), 13);
        assert_eq!(refusal(0b00011, 0), 0);
        assert_eq!(refusal(0b11101, 1), 0);
        assert_eq!(refusal(0b11101, 3), 13);
        assert_eq!(refusal(0b11111, 0), 13);
        assert_eq!(refusal(0b01101, 0), 13);
        assert_eq!(refusal(0b01011, 0), 13);
        assert_eq!(refusal(0b00001, 0), 13);
        assert_eq!(refusal(0b00010, 0), 13);
        assert_eq!(refusal(0b100011, 0), 13);
    }

    #[test]
    fn places_beyond_the_counts() {
        for at in [0, 9, 10 + 5, 10 + 63, 74 + 4, 201] {
            let mut lift = Lift::fresh(&chart());
            lift.board[at] ^= 1;
            assert_eq!(lift.step(1, ENOUGH).0, 13);
        }
        let mut lift = Lift::fresh(&chart());
        assert_eq!(lift.variable(0), 7);
        lift.board[74] = 8;
        assert_eq!(lift.step(1, ENOUGH).0, 0);
        assert_eq!(lift.variable(0), 8);
    }
}
