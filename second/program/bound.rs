//! The bound of a chart, with refusals 21 to 23.

use super::chart::{Chart, Destination};
use super::faults::{Fault, Rules};
use super::ops::Op;
use super::refusal::{require, Refusal};

const LARGEST_BOUND: u64 = 1_000_000;

pub fn bound(chart: &Chart, rules: Rules) -> Result<u64, Refusal> {
    require(!has_send(chart, rules), Refusal::BoundSend)?;
    let weights = junction_weights(chart, rules);
    let no_loop = weights.iter().all(Option::is_some) || rules.wrong(Fault::UnreachedLoopAllowed);
    require(no_loop, Refusal::BoundLoop)?;
    let change = change_weight(chart);
    let mut bound = 0;
    for state in &chart.states {
        // a list without a weight is left only by the fault above
        let outer = list_weight(chart, &weights, &state.outer, rules).ok_or(Refusal::BoundLoop)?;
        let inner = list_weight(chart, &weights, &state.inner, rules).ok_or(Refusal::BoundLoop)?;
        bound += 1 + count(&state.during) + outer + inner + change;
    }
    let largest = LARGEST_BOUND - u64::from(rules.wrong(Fault::BoundLimitRefused));
    require(bound <= largest, Refusal::BoundLimit)?;
    Ok(bound)
}

fn has_send(chart: &Chart, rules: Rules) -> bool {
    let sends = |block: &Vec<Op>| block.iter().any(|op| matches!(op, Op::Send { .. }));
    if rules.wrong(Fault::UnusedSendAllowed) {
        let in_state = chart.states.iter().any(|state| sends(&state.during));
        return in_state || chart.segments.iter().any(|segment| sends(&segment.condition_action));
    }
    sends(&chart.instructions)
}

fn count(block: &[Op]) -> u64 {
    block.len() as u64
}

/// The paper's G: what leaving and entering every state and every transition action cost.
fn change_weight(chart: &Chart) -> u64 {
    let of_states: u64 = chart.states.iter().map(|state| 2 + count(&state.entry) + count(&state.exit)).sum();
    let of_segments: u64 = chart.segments.iter().map(|segment| count(&segment.transition_action)).sum();
    of_states + of_segments
}

/// The summed W of each junction's segments; none for a junction whose segments lead into a loop.
/// A junction is weighed once all it leads to is, so that no path is walked twice.
fn junction_weights(chart: &Chart, rules: Rules) -> Vec<Option<u64>> {
    let mut weights = vec![None; chart.junctions.len()];
    loop {
        let weighed = (0..weights.len()).filter(|&junction| weights[junction].is_none()).find_map(|junction| {
            let weight = list_weight(chart, &weights, &chart.junctions[junction].segments, rules)?;
            Some((junction, weight))
        });
        let Some((junction, weight)) = weighed else { return weights };
        weights[junction] = Some(weight);
    }
}

/// The summed W of a list, none as long as a junction it leads to has no weight. It stops growing above the largest
/// bound: what is over it stays over it in every sum.
fn list_weight(chart: &Chart, weights: &[Option<u64>], list: &[usize], rules: Rules) -> Option<u64> {
    let mut sum = 0;
    for (place, &number) in list.iter().enumerate() {
        let segment = &chart.segments[number];
        let onward = match segment.destination {
            Destination::State(_) => 0,
            Destination::Junction(junction) => weights[junction]?,
        };
        let counted = rules.wrong(Fault::SharedJunctionOnce)
            && list[..place].iter().any(|&earlier| chart.segments[earlier].destination == segment.destination);
        let own = 1 + count(&segment.condition) + count(&segment.condition_action);
        sum += own + if counted { 0 } else { onward };
    }
    Some(sum.min(LARGEST_BOUND + 1))
}

#[cfg(test)]
mod tests {
    use super::super::trial::*;
    use crate::draft::*;

    #[test]
    fn shared_junction_counts_each_time() {
        let mut chart = two_leaves();
        chart.junction(0).junction(0).segment(outer(1), to_junction(0), 1).segment(from_junction(1), to_state(2), 0);
        twice(&mut chart, from_junction(0), to_junction(1));
        assert_eq!(bound(&chart), (0, 21 + 5));
    }

    #[test]
    fn loops_and_sends_are_refused() {
        let mut unreached_loop = two_leaves();
        unreached_loop.junction(0).segment(from_junction(0), to_junction(0), 0);
        assert_eq!(bound(&unreached_loop), (22, 0));
        assert_eq!(bound(unreached_loop.during(&[send(1, 0)])), (21, 0));
    }

    #[test]
    fn the_largest_bound() {
        assert_eq!(bound(&chart_of_bound(1_000_000)), (0, 1_000_000));
        assert_eq!(bound(&chart_of_bound(1_000_001)), (23, 0));
    }

    /// 60 junctions, each with two segments to the next: 2^60 paths and more, none of which is walked.
    #[test]
    fn exponential_weight_is_refused_at_once() {
        let mut chart = two_leaves();
        chart.segment(outer(1), to_junction(0), 0);
        for number in 0..60 {
            let next = if number == 59 { to_state(2) } else { to_junction(number + 1) };
            twice(chart.junction(0), from_junction(number), next);
        }
        assert_eq!(bound(&chart), (23, 0));
    }
}
