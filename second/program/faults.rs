//! The deliberate faults: each makes one rule of the paper wrong, to show that a comparison of two programs finds it.

/// The faults and the list of their names come from one list, so that neither can miss one of the other's.
macro_rules! faults {
    ($(#[doc = $wrong_rule:literal] $fault:ident = $name:literal,)*) => {
        #[derive(Clone, Copy, PartialEq, Eq, Debug)]
        pub enum Fault {
            $(#[doc = $wrong_rule] $fault,)*
        }

        /// Every fault with its name.
        pub const ALL: &[(Fault, &str)] = &[$((Fault::$fault, $name),)*];
    };
}

faults! {
    /// A chart under 12 bytes is read on, its missing fields as zeros (number 1 is never given).
    ShortHeaderRead = "short_header_read",
    /// Only the first byte of the CH mark is tested.
    HalfChartMark = "half_chart_mark",
    /// 65 junctions are allowed.
    SixtyFiveJunctions = "sixty_five_junctions",
    /// A chart without events is allowed.
    NoEventsAllowed = "no_events_allowed",
    /// Bytes after the last table are allowed.
    LongerChartAllowed = "longer_chart_allowed",
    /// The mark of a VA record is not tested.
    VariableMarkUntested = "variable_mark_untested",
    /// The zero byte of a JN record is not tested.
    JunctionZeroUntested = "junction_zero_untested",
    /// A state may be nine deep.
    DepthNineAllowed = "depth_nine_allowed",
    /// The initial field of a leaf or an all-of state is not tested.
    SpareInitialUntested = "spare_initial_untested",
    /// An all-of state may keep history.
    HistoryOnAllOfAllowed = "history_on_all_of_allowed",
    /// A segment may end at state 0.
    SegmentToRootAllowed = "segment_to_root_allowed",
    /// A segment's event may be beyond the events.
    SegmentEventUntested = "segment_event_untested",
    /// An empty block may have a start.
    EmptyBlockStartUntested = "empty_block_start_untested",
    /// The root may have blocks.
    RootBlocksAllowed = "root_blocks_allowed",
    /// The unused operand of a push may be anything.
    PushOperandUntested = "push_operand_untested",
    /// A raise of output 0 is allowed.
    OutputZeroAllowed = "output_zero_allowed",
    /// The stack has 17 places.
    SeventeenStackPlaces = "seventeen_stack_places",
    /// An action may end with values on its stack.
    ActionMayLeaveValues = "action_may_leave_values",
    /// A condition may raise an output.
    RaiseInConditionAllowed = "raise_in_condition_allowed",
    /// An exit action may send.
    SendInExitAllowed = "send_in_exit_allowed",
    /// Lift 64 is allowed.
    LiftSixtyFourAllowed = "lift_sixty_four_allowed",
    /// The image's mark is not tested.
    ImageMarkUntested = "image_mark_untested",
    /// An image's history may name any state after its owner, child or not.
    HistoryOfNoChildAllowed = "history_of_no_child_allowed",
    /// An image's history may name a child of a state that keeps none.
    UnkeptHistoryAllowed = "unkept_history_allowed",
    /// A one-of state of an image may have several active children.
    SeveralActiveChildrenAllowed = "several_active_children_allowed",
    /// An all-of state of an image may have inactive children.
    PartlyActiveAllOfAllowed = "partly_active_all_of_allowed",
    /// A child of an inactive state of an image may be active.
    OrphanActiveAllowed = "orphan_active_allowed",
    /// Active bits beyond the states are not tested.
    BitsBeyondCountAllowed = "bits_beyond_count_allowed",
    /// Variables beyond the chart's count are not tested.
    VariablesBeyondCountAllowed = "variables_beyond_count_allowed",
    /// An image that has not started may have history.
    UnstartedHistoryAllowed = "unstarted_history_allowed",
    /// Event 0 is allowed.
    EventZeroAllowed = "event_zero_allowed",
    /// An allowance of 1,000,001 is allowed.
    AllowanceOneMoreAllowed = "allowance_one_more_allowed",
    /// The allowance (15) is tested before the event (14).
    AllowanceBeforeEvent = "allowance_before_event",
    /// The event that starts the chart is run as well.
    EventRunAfterStart = "event_run_after_start",
    /// A one-of state runs every child that is active when its turn comes.
    OneOfRunsByTurn = "one_of_runs_by_turn",
    /// An all-of state runs its inactive children, too.
    InactiveChildRun = "inactive_child_run",
    /// The variables a failed path has set get their old values back.
    ConditionActionsUndone = "condition_actions_undone",
    /// A junction without segments is an ordinary failure: the next segment of the list before is tried.
    DeadEndOrdinaryFailure = "dead_end_ordinary_failure",
    /// The condition is performed before the event is looked at.
    ConditionBeforeEvent = "condition_before_event",
    /// The transition actions of failed paths are performed with those of the path that reaches a state.
    FailedTransitionActionsKept = "failed_transition_actions_kept",
    /// A path of 129 segments is allowed.
    PathOneMoreAllowed = "path_one_more_allowed",
    /// A negative condition fails.
    NegativeConditionFails = "negative_condition_fails",
    /// Transition actions are performed before the leaving.
    TransitionActionsBeforeLeaving = "transition_actions_before_leaving",
    /// The arena is found without the junctions' parents.
    ArenaIgnoresJunctions = "arena_ignores_junctions",
    /// A segment from a state to itself leaves only the state's children.
    SelfTransitionKeepsState = "self_transition_keeps_state",
    /// Children are left in the order of entry.
    LeftInEntryOrder = "left_in_entry_order",
    /// History is not recorded.
    HistoryNotRecorded = "history_not_recorded",
    /// The parent's parent records the state left.
    HistoryOfGrandparent = "history_of_grandparent",
    /// The recorded child goes before the one on the way to the target.
    HistoryBeforeTarget = "history_before_target",
    /// A send's owner is not tested: its run goes on though it is inactive.
    OwnerUntested = "owner_untested",
    /// Nine sends may be open.
    NinthSendAllowed = "ninth_send_allowed",
    /// A send runs an inactive state, too.
    SendRunsInactive = "send_runs_inactive",
    /// A send to an inactive state is refused, too, when 8 are open.
    SendLimitBeforeActivity = "send_limit_before_activity",
    /// A send runs the state with the sender's event.
    SendKeepsEvent = "send_keeps_event",
    /// A leaving is paid after the children have been left.
    LeavingPaidAfterChildren = "leaving_paid_after_children",
    /// A segment of another event is not paid for.
    OtherEventUnpaid = "other_event_unpaid",
    /// The last unit of the allowance cannot be spent.
    LastUnitRefused = "last_unit_refused",
    /// The root's during point is not traced.
    RootDuringUntraced = "root_during_untraced",
    /// A passed segment's item comes after its condition action.
    PassedItemAfterAction = "passed_item_after_action",
    /// The room for items is rounded up.
    RoomRoundedUp = "room_rounded_up",
    /// There is room for 257 items.
    RoomForOneMore = "room_for_one_more",
    /// Sums, differences, products and quotients wrap.
    ArithmeticWraps = "arithmetic_wraps",
    /// A quotient is rounded so that what is left over is not negative.
    QuotientLeavesPositive = "quotient_leaves_positive",
    /// A remainder by -1 is refused.
    RemainderByMinusOneRefused = "remainder_by_minus_one_refused",
    /// A remainder has the sign of the divisor.
    RemainderOfDivisorsSign = "remainder_of_divisors_sign",
    /// Less holds for equal values, too.
    LessOrEqual = "less_or_equal",
    /// W counts a junction once where several segments of one list lead to it.
    SharedJunctionOnce = "shared_junction_once",
    /// A bound of exactly 1,000,000 is refused.
    BoundLimitRefused = "bound_limit_refused",
    /// The bound looks for sends in blocks only.
    UnusedSendAllowed = "unused_send_allowed",
    /// The bound looks for loops only where a state's segments lead.
    UnreachedLoopAllowed = "unreached_loop_allowed",
    /// A step refused while it runs leaves its changes in the board.
    RefusedStepWritesBoard = "refused_step_writes_board",
    /// A fresh image keeps the history that was there.
    FreshKeepsHistory = "fresh_keeps_history",
    /// A cut EV record at the end is passed over.
    CutEventIgnored = "cut_event_ignored",
    /// A session goes on after a wrong EV record.
    BadSessionGoesOn = "bad_session_goes_on",
    /// A session ends with its first refused event.
    RefusalEndsSession = "refusal_ends_session",
    /// A session ends at the bound's refusals 21 to 23, too.
    BoundRefusalEndsSession = "bound_refusal_ends_session",
}

/// The paper's rules, at most one of them made wrong.
#[derive(Clone, Copy)]
pub struct Rules {
    pub fault: Option<Fault>,
}

impl Rules {
    pub fn wrong(self, fault: Fault) -> bool {
        self.fault == Some(fault)
    }
}

#[cfg(test)]
mod tests {
    use super::super::trial::*;
    use super::{Fault, ALL};
    use crate::draft::*;

    /// A fault's name is the snake case of its variant; a slip in one of them would give two names to one fault.
    #[test]
    fn names_follow_the_variants() {
        for (fault, name) in ALL {
            let mut snake = String::new();
            for letter in format!("{fault:?}").chars() {
                if letter.is_uppercase() && !snake.is_empty() {
                    snake.push('_');
                }
                snake.push(letter.to_ascii_lowercase());
            }
            assert_eq!(snake, *name);
        }
    }

    fn assert_shown<T: PartialEq + std::fmt::Debug>(fault: Fault, answer: impl Fn(Calls) -> T) {
        assert_ne!(answer(PAPER), answer(Calls { fault: Some(fault) }), "{fault:?}");
    }

    fn assert_shown_by_bound(fault: Fault, chart: &Draft) {
        assert_shown(fault, |calls| calls.bound(&chart.bytes()));
    }

    fn assert_shown_by_second_step(fault: Fault, chart: &Draft, trace_bytes: usize, allowance: u32) {
        assert_shown(fault, |calls| {
            let mut lift = Lift::started(chart);
            lift.trace.resize(trace_bytes, 0);
            lift.calls = calls;
            lift.step(1, allowance)
        });
    }

    /// Random charts seldom meet these faults, so each is shown by an input made for it.
    #[test]
    fn rare_faults_of_the_checker_and_the_bound() {
        let sum_of_17 = [vec![push(1); 17], vec![ADD; 16]].concat();
        assert_shown_by_bound(Fault::SeventeenStackPlaces, Draft::chart_a().condition(sum_of_17));
        assert_shown_by_bound(Fault::RaiseInConditionAllowed, Draft::chart_a().condition(&[push(1), raise(1)]));
        assert_shown_by_bound(Fault::SixtyFiveJunctions, &Draft { junctions: vec![0; 65], ..Draft::chart_a() });
        assert_shown_by_bound(Fault::BoundLimitRefused, &chart_of_bound(1_000_000));
        assert_shown(Fault::LiftSixtyFourAllowed, |calls| calls.fresh(&Draft::chart_a().bytes(), &mut [0; 65 * 202], 64));
    }

    #[test]
    fn rare_faults_of_the_step() {
        assert_shown_by_second_step(Fault::NinthSendAllowed, &self_sender(9), 1024, ENOUGH);
        assert_shown_by_second_step(Fault::OwnerUntested, &abandoned_path(), 1024, ENOUGH);

        // Under 8 open sends, the next one goes to state 2, which is inactive.
        let mut to_inactive = self_sender(8);
        to_inactive.segment(inner(1), to_junction(0), 0).condition_action(&[send(1, 2)]);
        assert_shown_by_second_step(Fault::SendLimitBeforeActivity, &to_inactive, 1024, ENOUGH);

        // The leaving of 2, 6 and 7 wants a sixth unit and then a third item; of both there is one too few.
        assert_shown_by_second_step(Fault::LeavingPaidAfterChildren, nested().segment(outer(2), to_state(1), 1), 8, 5);

        // Two during points and 255 outputs.
        let mut raising = Draft::over_leaves(ONE_OF, 1);
        assert_shown_by_second_step(Fault::RoomForOneMore, raising.during(&[raise(1); 255]), 1028, ENOUGH);

        // One segment to junction 0, 127 from there to itself, and one to the dead end.
        let mut long_path = three_leaves();
        long_path.junction(0).junction(0).segment(outer(1), to_junction(0), 0);
        long_path.segment(from_junction(0), to_junction(0), 0).condition(&[load(0), push(127), LESS]);
        long_path.condition_action(&[load(0), push(1), ADD, store(0)]).segment(from_junction(0), to_junction(1), 0);
        assert_shown_by_second_step(Fault::PathOneMoreAllowed, &long_path, 1024, ENOUGH);
    }
}
