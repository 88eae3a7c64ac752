//! One step of a chart on one lift's image: start, run, search, fire, leave, enter, blocks and sends.
//!
//! Why it ends without using up the machine stack: leaving, entering and running children go down the tree, the root and
//! at most 8 levels. A search goes one call deeper for each segment of its path, at most 128, each of which is an item of
//! the trace. Both may stand once in the step itself and once under each of at most 8 open sends. Loops of junctions and
//! sends end because units pay for them.

use super::chart::{Chart, Destination, Kind, Segment, ROOT};
use super::faults::{Fault, Rules};
use super::image::Image;
use super::ops::Op;
use super::refusal::{require, Refusal};
use super::trace::{Item, Trace};

const MOST_OPEN_SENDS: usize = 8;
const LONGEST_PATH: usize = 128;

/// One run of a state: the state, which owns the sends of the run, and the event it is run with.
#[derive(Clone, Copy)]
struct Turn {
    state: usize,
    event: usize,
}

/// Why a run ends early.
enum Stop {
    Refused(Refusal),
    /// A send has left the owner inactive; only the owner's own run ends.
    Abandoned,
}

impl From<Refusal> for Stop {
    fn from(refusal: Refusal) -> Stop {
        Stop::Refused(refusal)
    }
}

enum Found {
    State(usize),
    /// No segment of the list has led to a state: the list before goes on.
    Nothing,
    /// A junction without segments: the whole search is over.
    DeadEnd,
}

pub struct Machine<'c> {
    chart: &'c Chart,
    rules: Rules,
    pub image: Image,
    pub trace: Trace,
    pub units: u32,
    allowance: u32,
    open_sends: usize,
    /// All open blocks share it, each above the values of the one that sent.
    stack: Vec<i32>,
}

impl<'c> Machine<'c> {
    pub fn new(chart: &'c Chart, image: Image, trace: Trace, allowance: u32, rules: Rules) -> Machine<'c> {
        let allowance = allowance.saturating_sub(u32::from(rules.wrong(Fault::LastUnitRefused)));
        Machine { chart, rules, image, trace, units: 0, allowance, open_sends: 0, stack: Vec::new() }
    }

    pub fn step(&mut self, event: usize) -> Result<(), Refusal> {
        if !self.image.started() {
            settled(self.enter(ROOT, None))?;
            if !self.wrong(Fault::EventRunAfterStart) {
                return Ok(());
            }
        }
        self.run(Turn { state: ROOT, event })
    }

    fn wrong(&self, fault: Fault) -> bool {
        self.rules.wrong(fault)
    }

    fn pay(&mut self) -> Result<(), Refusal> {
        require(self.units < self.allowance, Refusal::Units)?;
        self.units += 1;
        Ok(())
    }

    fn run(&mut self, turn: Turn) -> Result<(), Refusal> {
        settled(self.run_parts(turn))
    }

    fn run_parts(&mut self, turn: Turn) -> Result<(), Stop> {
        let state = &self.chart.states[turn.state];
        self.pay()?;
        if self.try_segments(&state.outer, turn)? {
            return Ok(());
        }
        self.announce_and_perform(Item::During, turn.state, &state.during, Some(turn))?;
        if self.try_segments(&state.inner, turn)? {
            return Ok(());
        }
        self.run_children(turn)
    }

    /// A one-of state runs the child it finds active, and not the one that this run may then make active.
    fn run_children(&mut self, turn: Turn) -> Result<(), Stop> {
        let state = &self.chart.states[turn.state];
        let run_inactive = state.kind == Kind::AllOf && self.wrong(Fault::InactiveChildRun);
        let at_most_one = matches!(state.kind, Kind::OneOf { .. }) && !self.wrong(Fault::OneOfRunsByTurn);
        for &child in &state.children {
            if self.image.active[child] || run_inactive {
                self.run(Turn { state: child, ..turn })?;
                if at_most_one {
                    break;
                }
            }
        }
        Ok(())
    }

    /// Whether a segment of the list, or one it leads to, has reached a state; that path has then been fired.
    fn try_segments(&mut self, list: &[usize], turn: Turn) -> Result<bool, Stop> {
        let mut path = Vec::new();
        if let Found::State(target) = self.search(list, turn, &mut path)? {
            self.fire(turn.state, target, &path)?;
            return Ok(true);
        }
        Ok(false)
    }

    fn search(&mut self, list: &[usize], turn: Turn, path: &mut Vec<usize>) -> Result<Found, Stop> {
        for &number in list {
            let segment = &self.chart.segments[number];
            if !self.passes(segment, turn.event)? {
                continue;
            }
            let undone = self.wrong(Fault::ConditionActionsUndone).then(|| self.image.variables.clone());
            self.follow(number, turn, path)?;
            let found = match segment.destination {
                Destination::State(target) => Found::State(target),
                Destination::Junction(junction) => self.search_junction(junction, turn, path)?,
            };
            if !matches!(found, Found::Nothing) {
                return Ok(found);
            }
            if !self.wrong(Fault::FailedTransitionActionsKept) {
                path.pop();
            }
            if let Some(variables) = undone {
                self.image.variables = variables;
            }
        }
        Ok(Found::Nothing)
    }

    fn search_junction(&mut self, junction: usize, turn: Turn, path: &mut Vec<usize>) -> Result<Found, Stop> {
        let segments = &self.chart.junctions[junction].segments;
        if segments.is_empty() && !self.wrong(Fault::DeadEndOrdinaryFailure) {
            return Ok(Found::DeadEnd);
        }
        self.search(segments, turn, path)
    }

    fn passes(&mut self, segment: &Segment, event: usize) -> Result<bool, Stop> {
        let for_event = segment.event == 0 || segment.event == event;
        if for_event || !self.wrong(Fault::OtherEventUnpaid) {
            self.pay()?;
        }
        if !for_event && !self.wrong(Fault::ConditionBeforeEvent) {
            return Ok(false);
        }
        // An empty condition leaves no value and holds.
        let value = self.perform(&segment.condition, None)?.unwrap_or(1);
        Ok(for_event && value != 0 && (value > 0 || !self.wrong(Fault::NegativeConditionFails)))
    }

    /// Takes a segment that passes into the path.
    fn follow(&mut self, number: usize, turn: Turn, path: &mut Vec<usize>) -> Result<(), Stop> {
        let longest = LONGEST_PATH + usize::from(self.wrong(Fault::PathOneMoreAllowed));
        require(path.len() < longest, Refusal::PathLength)?;
        path.push(number);
        self.announce_and_perform(Item::Passed, number, &self.chart.segments[number].condition_action, Some(turn))
    }

    fn fire(&mut self, source: usize, target: usize, path: &[usize]) -> Result<(), Stop> {
        let arena = self.arena(source, target, path);
        let too_early = self.wrong(Fault::TransitionActionsBeforeLeaving);
        if too_early {
            self.perform_transition_actions(path)?;
        }
        self.leave_children(arena)?;
        if !too_early {
            self.perform_transition_actions(path)?;
        }
        self.enter_children(arena, Some(target))
    }

    fn arena(&self, source: usize, target: usize, path: &[usize]) -> usize {
        let mut arena = self.chart.meeting_state(source, target);
        for &number in path {
            if let Destination::Junction(junction) = self.chart.segments[number].destination {
                let meeting = self.chart.meeting_state(arena, self.chart.junctions[junction].parent);
                arena = if self.wrong(Fault::ArenaIgnoresJunctions) { arena } else { meeting };
            }
        }
        if source == target && target == arena && !self.wrong(Fault::SelfTransitionKeepsState) {
            return self.chart.states[arena].parent;
        }
        arena
    }

    fn perform_transition_actions(&mut self, path: &[usize]) -> Result<(), Stop> {
        for &number in path {
            let action = &self.chart.segments[number].transition_action;
            self.announce_and_perform(Item::Transition, number, action, None)?;
        }
        Ok(())
    }

    fn leave_children(&mut self, state: usize) -> Result<(), Stop> {
        let children = &self.chart.states[state].children;
        for place in 0..children.len() {
            let highest_first = children.len() - 1 - place;
            let child = children[if self.wrong(Fault::LeftInEntryOrder) { place } else { highest_first }];
            if self.image.active[child] {
                self.leave(child)?;
            }
        }
        Ok(())
    }

    fn leave(&mut self, number: usize) -> Result<(), Stop> {
        let late_pay = self.wrong(Fault::LeavingPaidAfterChildren);
        if !late_pay {
            self.pay()?;
        }
        self.leave_children(number)?;
        if late_pay {
            self.pay()?;
        }
        self.perform(&self.chart.states[number].exit, None)?;
        self.record_history(number);
        self.image.active[number] = false;
        Ok(self.trace.add(Item::Left, number)?)
    }

    fn record_history(&mut self, left: usize) {
        let states = &self.chart.states;
        let mut keeper = states[left].parent;
        if self.wrong(Fault::HistoryOfGrandparent) {
            keeper = states[keeper].parent;
        }
        if states[keeper].keeps_history() && !self.wrong(Fault::HistoryNotRecorded) {
            self.image.history[keeper] = Some(left);
        }
    }

    fn enter(&mut self, number: usize, target: Option<usize>) -> Result<(), Stop> {
        self.pay()?;
        self.image.active[number] = true;
        self.announce_and_perform(Item::Entered, number, &self.chart.states[number].entry, None)?;
        self.enter_children(number, target)
    }

    fn enter_children(&mut self, number: usize, target: Option<usize>) -> Result<(), Stop> {
        let state = &self.chart.states[number];
        match state.kind {
            Kind::Leaf => Ok(()),
            Kind::OneOf { initial, .. } => self.enter(self.chosen_child(number, target).unwrap_or(initial), target),
            Kind::AllOf => state.children.iter().try_for_each(|&child| self.enter(child, target)),
        }
    }

    /// The child of a one-of state on the way to the target, else the recorded one.
    fn chosen_child(&self, state: usize, target: Option<usize>) -> Option<usize> {
        let towards = target.and_then(|target| self.chart.child_towards(state, target));
        let recorded = self.image.history[state];
        if self.wrong(Fault::HistoryBeforeTarget) {
            return recorded.or(towards);
        }
        towards.or(recorded)
    }

    /// Items 1, 3, 4 and 5 stand before the action they announce, and stand there for an empty action, too.
    fn announce_and_perform(&mut self, item: Item, number: usize, block: &[Op], sender: Option<Turn>) -> Result<(), Stop> {
        let untraced = item == Item::During && number == ROOT && self.wrong(Fault::RootDuringUntraced);
        let late = item == Item::Passed && self.wrong(Fault::PassedItemAfterAction);
        if !untraced && !late {
            self.trace.add(item, number)?;
        }
        self.perform(block, sender)?;
        if late {
            self.trace.add(item, number)?;
        }
        Ok(())
    }

    /// Performs a block and answers the value that a condition leaves. Blocks in which sends are barred have no sender.
    fn perform(&mut self, block: &[Op], sender: Option<Turn>) -> Result<Option<i32>, Stop> {
        let base = self.stack.len();
        let outcome = block.iter().try_for_each(|&op| self.perform_op(op, sender));
        let left_over = self.stack.get(base).copied();
        self.stack.truncate(base);
        outcome.map(|()| left_over)
    }

    fn perform_op(&mut self, op: Op, sender: Option<Turn>) -> Result<(), Stop> {
        self.pay()?;
        match op {
            Op::Push(value) => self.stack.push(i32::from(value)),
            Op::Load(variable) => self.stack.push(self.image.variables[usize::from(variable)]),
            Op::Store(variable) => self.image.variables[usize::from(variable)] = self.pop(),
            Op::Binary(operator) => {
                let top = self.pop();
                let lower = self.pop();
                self.stack.push(operator.apply(lower, top, self.rules)?);
            }
            Op::Not => {
                let value = self.pop();
                self.stack.push(i32::from(value == 0));
            }
            Op::Raise(output) => self.trace.add(Item::Raised, usize::from(output))?,
            Op::Send { event, state } => {
                if let Some(sender) = sender {
                    self.send(Turn { state: usize::from(state), event: usize::from(event) }, sender)?;
                }
            }
        }
        Ok(())
    }

    /// The checker lets no block take from an empty stack, so the 0 is never used.
    fn pop(&mut self) -> i32 {
        self.stack.pop().unwrap_or(0)
    }

    fn send(&mut self, sent: Turn, sender: Turn) -> Result<(), Stop> {
        let most_open = MOST_OPEN_SENDS + usize::from(self.wrong(Fault::NinthSendAllowed));
        let active = self.image.active[sent.state] || self.wrong(Fault::SendRunsInactive);
        if active || self.wrong(Fault::SendLimitBeforeActivity) {
            require(self.open_sends < most_open, Refusal::OpenSends)?;
        }
        if active {
            let event = if self.wrong(Fault::SendKeepsEvent) { sender.event } else { sent.event };
            self.open_sends += 1;
            self.run(Turn { event, ..sent })?;
            self.open_sends -= 1;
        }
        if self.image.active[sender.state] || self.wrong(Fault::OwnerUntested) {
            return Ok(());
        }
        Err(Stop::Abandoned)
    }
}

/// An abandoned run is over like any other; whoever ran the state goes on.
fn settled(outcome: Result<(), Stop>) -> Result<(), Refusal> {
    match outcome {
        Ok(()) | Err(Stop::Abandoned) => Ok(()),
        Err(Stop::Refused(refusal)) => Err(refusal),
    }
}

#[cfg(test)]
mod tests {
    use super::super::trial::*;
    use crate::draft::*;

    /// The first segment sets x to 1 and leads to junction 0, the second to state 3.
    fn two_segments() -> Draft {
        let mut chart = three_leaves();
        chart.junction(0).segment(outer(1), to_junction(0), 1).condition_action(&[push(1), store(0)]);
        chart.segment(outer(1), to_state(3), 1);
        chart
    }

    #[test]
    fn a_failed_path_keeps_its_condition_actions() {
        let mut onward = two_segments();
        onward.segment(from_junction(0), to_state(2), 1).condition(&[load(0), push(2), EQUAL]);
        let mut lift = Lift::started(&onward);
        // Units: two runs, three segments tried, two and three instructions, one leaving, one entering.
        assert_eq!(lift.step(1, ENOUGH), (0, 12, vec![0x30000, 0x40000, 0x40001, 0x20001, 0x50001, 0x10003]));
        assert_eq!((lift.active(), lift.variable(0)), (0b1001, 1));
    }

    #[test]
    fn a_dead_end_ends_the_whole_search() {
        let mut lift = Lift::started(&two_segments());
        assert_eq!(lift.step(1, ENOUGH), (0, 5, vec![0x30000, 0x40000, 0x30001]));
        assert_eq!((lift.active(), lift.variable(0)), (0b0011, 1));
    }

    #[test]
    fn an_outer_self_transition_leaves_and_enters() {
        let mut lift = Lift::started(three_leaves().segment(outer(1), to_state(1), 1));
        assert_eq!(lift.step(1, ENOUGH), (0, 5, vec![0x30000, 0x40000, 0x20001, 0x50000, 0x10001]));
    }

    #[test]
    fn a_send_that_leaves_the_owner_abandons_its_path() {
        let mut lift = Lift::started(&abandoned_path());
        let items = vec![0x30000, 0x40000, 0x30000, 0x40001, 0x20001, 0x50001, 0x10002];
        // Units: two runs, a segment, the send; two runs, two segments, a leaving, an entering.
        assert_eq!(lift.step(1, ENOUGH), (0, 10, items));
        assert_eq!(lift.active(), 0b0101);
    }

    #[test]
    fn a_sent_child_is_run_again_by_its_turn() {
        let mut lift = Lift::started(Draft::new(1, 0).state(0, ALL_OF, 0).leaves(0, 1).during(&[send(1, 2)]).leaves(0, 1));
        assert_eq!(lift.step(1, ENOUGH), (0, 5, vec![0x30000, 0x30001, 0x30002, 0x30002]));
    }

    #[test]
    fn eight_open_sends_are_allowed() {
        let mut lift = Lift::started(&self_sender(8));
        assert_eq!(lift.step(1, ENOUGH).0, 0);
        assert_eq!(lift.variable(0), 8);
        assert_eq!(Lift::started(&self_sender(9)).step(1, ENOUGH).0, 18);
    }

    #[test]
    fn quotient_and_remainder_of_the_lowest_value_by_minus_one() {
        let dividing = |operator| {
            let code = [load(0), push(-1), operator, store(0)];
            Lift::started(Draft::over_leaves(ONE_OF, 1).variable(i32::MIN).during(&code))
        };
        assert_eq!(dividing(QUOTIENT).step(1, ENOUGH).0, 17);
        let mut lift = dividing(REMAINDER);
        assert_eq!(lift.step(1, ENOUGH).0, 0);
        assert_eq!(lift.variable(0), 0);
    }

    #[test]
    fn a_junction_looping_on_itself_is_refused() {
        let mut chart = three_leaves();
        chart.junction(0).segment(outer(1), to_junction(0), 1).segment(from_junction(0), to_junction(0), 0);
        assert_eq!(Lift::started(&chart).step(1, ENOUGH).0, 19);
        assert_eq!(bound(&chart), (22, 0));
    }

    #[test]
    fn leaving_is_highest_first_and_history_is_entered_again() {
        let mut chart = nested();
        chart.segment(outer(4), to_state(5), 1).segment(outer(2), to_state(1), 2);
        chart.segment(outer(1), to_state(7), 2).transition_action(&[raise(1)]);
        let mut lift = Lift::started(&chart);
        assert_eq!(lift.step(1, ENOUGH).0, 0);
        assert_eq!((lift.active(), lift.history(3)), (0b1110_1101, 4));
        // The root, then 2 with its segment; 7, 6, 5, 3 and 2 are left; 2 raises output 2 on its exit.
        let left = vec![0x30000, 0x40001, 0x20007, 0x20006, 0x20005, 0x20003, 0x60002, 0x20002, 0x50001, 0x10001];
        assert_eq!(lift.step(2, ENOUGH), (0, 10, left));
        assert_eq!((lift.active(), lift.history(3)), (0b0000_0011, 5));
        let entered = vec![0x30000, 0x40002, 0x20001, 0x50002, 0x60001, 0x10002, 0x10003, 0x10005, 0x10006, 0x10007];
        assert_eq!(lift.step(2, ENOUGH), (0, 10, entered));
    }

    #[test]
    fn a_junctions_parent_widens_the_arena() {
        let left_and_entered = |parent| {
            let mut chart = nested();
            chart.junction(parent).segment(outer(4), to_junction(0), 1).segment(from_junction(0), to_state(5), 1);
            let items = Lift::started(&chart).step(1, ENOUGH).2;
            items.into_iter().filter(|item| matches!(item >> 16, 1 | 2)).collect::<Vec<_>>()
        };
        assert_eq!(left_and_entered(4), [0x20004, 0x10005]);
        assert_eq!(left_and_entered(2), [0x20007, 0x20006, 0x20004, 0x20003, 0x10003, 0x10005, 0x10006, 0x10007]);
    }
}
