//! The checker of charts: refusals 1 to 5 in the reading of the tables, and here 6 to 11 over their rows.

use super::chart::{Chart, ROOT};
use super::faults::{Fault, Rules};
use super::ops::Op;
use super::refusal::{require, Refusal};
use super::tables::{Role, SegmentRow, StateRow, Tables};

const DEEPEST: usize = 8;
const STACK_PLACES: usize = 16;

/// The tests stand in the order of their numbers, so that the lowest number wins and later ones presume earlier ones.
pub fn accept(bytes: &[u8], rules: Rules) -> Result<Chart, Refusal> {
    let tables = Tables::read(bytes, rules)?;
    require(states_right(&tables, rules), Refusal::StateRule)?;
    require(tables.segments.iter().all(|row| segment_right(row, &tables, rules)), Refusal::SegmentRule)?;
    require(blocks_right(&tables, rules), Refusal::BlockRule)?;
    let instructions = decode_instructions(&tables, rules).ok_or(Refusal::InstructionRule)?;
    for (role, span) in tables.blocks() {
        require(stack_right(span.of(&instructions), role, rules), Refusal::StackUse)?;
    }
    for (role, span) in tables.blocks() {
        require(!span.of(&instructions).iter().any(|op| barred(*op, role, rules)), Refusal::BarredOp)?;
    }
    Ok(Chart::assemble(tables, instructions))
}

fn states_right(tables: &Tables, rules: Rules) -> bool {
    let deepest = DEEPEST + usize::from(rules.wrong(Fault::DepthNineAllowed));
    let mut depths: Vec<usize> = Vec::with_capacity(tables.states.len());
    let mut has_child = vec![false; tables.states.len()];
    for (number, row) in tables.states.iter().enumerate() {
        if number == ROOT {
            if row.parent != ROOT {
                return false;
            }
            depths.push(0);
            continue;
        }
        if row.parent >= number || depths[row.parent] == deepest {
            return false;
        }
        depths.push(depths[row.parent] + 1);
        has_child[row.parent] = true;
    }
    let kinds_right = (0..tables.states.len()).all(|number| kind_right(number, &tables.states, has_child[number], rules));
    kinds_right && tables.junctions.iter().all(|&parent| parent < tables.header.states)
}

fn kind_right(number: usize, rows: &[StateRow], has_child: bool, rules: Rules) -> bool {
    let row = &rows[number];
    let initial_is_child = row.initial != ROOT && rows.get(row.initial).is_some_and(|child| child.parent == number);
    let no_initial = row.initial == 0 || rules.wrong(Fault::SpareInitialUntested);
    match row.kind {
        0 => !has_child && no_initial && row.history == 0,
        1 => has_child && initial_is_child && row.history <= 1,
        2 => has_child && no_initial && (row.history == 0 || row.history == 1 && rules.wrong(Fault::HistoryOnAllOfAllowed)),
        _ => false,
    }
}

fn segment_right(row: &SegmentRow, tables: &Tables, rules: Rules) -> bool {
    let header = &tables.header;
    let state_beside_root = 1..header.states;
    let source_right = match row.source_kind {
        0 | 1 => state_beside_root.contains(&row.source),
        2 => row.source < header.junctions,
        _ => false,
    };
    let destination_right = match row.destination_kind {
        0 => state_beside_root.contains(&row.destination) || row.destination == ROOT && rules.wrong(Fault::SegmentToRootAllowed),
        1 => row.destination < header.junctions,
        _ => false,
    };
    source_right && destination_right && (row.event <= header.events || rules.wrong(Fault::SegmentEventUntested))
}

fn blocks_right(tables: &Tables, rules: Rules) -> bool {
    let spans_right = tables.blocks().all(|(_, span)| match span.count {
        0 => span.start == 0 || rules.wrong(Fault::EmptyBlockStartUntested),
        _ => span.start + span.count <= tables.header.instructions,
    });
    let root_empty = tables.states[ROOT].blocks.iter().all(|span| span.count == 0);
    spans_right && (root_empty || rules.wrong(Fault::RootBlocksAllowed))
}

fn decode_instructions(tables: &Tables, rules: Rules) -> Option<Vec<Op>> {
    let mut instructions = Vec::with_capacity(tables.instructions.len());
    for row in &tables.instructions {
        let op = Op::decode(row, rules)?;
        if !targets_exist(op, tables, rules) {
            return None;
        }
        instructions.push(op);
    }
    Some(instructions)
}

fn targets_exist(op: Op, tables: &Tables, rules: Rules) -> bool {
    let header = &tables.header;
    match op {
        Op::Load(variable) | Op::Store(variable) => usize::from(variable) < header.variables,
        Op::Raise(0) => rules.wrong(Fault::OutputZeroAllowed),
        Op::Raise(output) => usize::from(output) <= header.outputs,
        Op::Send { event, state } => (1..=header.events).contains(&usize::from(event)) && usize::from(state) < header.states,
        Op::Push(_) | Op::Binary(_) | Op::Not => true,
    }
}

fn stack_right(block: &[Op], role: Role, rules: Rules) -> bool {
    let places = STACK_PLACES + usize::from(rules.wrong(Fault::SeventeenStackPlaces));
    let mut depth = 0;
    for op in block {
        let (takes, gives) = op.stack_use();
        if depth < takes || depth - takes + gives > places {
            return false;
        }
        depth = depth - takes + gives;
    }
    match role {
        Role::Condition => depth == usize::from(!block.is_empty()),
        _ => depth == 0 || rules.wrong(Fault::ActionMayLeaveValues),
    }
}

fn barred(op: Op, role: Role, rules: Rules) -> bool {
    match op {
        Op::Store(_) => role == Role::Condition,
        Op::Raise(_) => role == Role::Condition && !rules.wrong(Fault::RaiseInConditionAllowed),
        Op::Send { .. } => match role {
            Role::ConditionAction | Role::During => false,
            Role::Exit => !rules.wrong(Fault::SendInExitAllowed),
            _ => true,
        },
        _ => false,
    }
}

#[cfg(test)]
mod tests {
    use super::*;
    use crate::draft::*;

    fn refusal(chart: &[u8]) -> u64 {
        accept(chart, Rules { fault: None }).map_or_else(Refusal::number, |_| 0)
    }

    /// Chart A with one byte set: 12 bytes of CH, states at 12, 28 and 44, the segment at 60, the instruction at 78.
    fn changed(at: usize, byte: u8) -> u64 {
        let mut chart = Draft::chart_a().bytes();
        chart[at] = byte;
        refusal(&chart)
    }

    #[test]
    fn lengths_of_chart_a() {
        let chart = Draft::chart_a().bytes();
        assert_eq!(chart.len(), 84);
        assert_eq!(refusal(&chart), 0);
        assert_eq!(refusal(&chart[..83]), 4);
        assert_eq!(refusal(&chart[..11]), 1);
        assert_eq!(refusal(&[]), 1);
    }

    #[test]
    fn one_wrong_byte() {
        assert_eq!(changed(0, b'X'), 2);
        assert_eq!(changed(2, 65), 3);
        assert_eq!(changed(7, 0), 3);
        assert_eq!(changed(2, 4), 4);
        assert_eq!(changed(9, 1), 5);
        assert_eq!(changed(12, b'X'), 5);
        assert_eq!(changed(27, 1), 5);
        assert_eq!(changed(12 + 4, 0), 6);
        assert_eq!(changed(28 + 2, 1), 6);
        assert_eq!(changed(28 + 5, 1), 6);
        assert_eq!(changed(60 + 3, 0), 7);
        assert_eq!(changed(60 + 6, 3), 7);
        assert_eq!(changed(44 + 6, 1), 8);
        assert_eq!(changed(28 + 6, 1), 8);
        assert_eq!(changed(12 + 8, 1), 8);
        assert_eq!(changed(78 + 3, 2), 9);
        assert_eq!(changed(78 + 2, 13), 9);
    }

    #[test]
    fn stack_and_barred_ops() {
        let with_entry = |code: &[Instruction]| refusal(&Draft::chart_a().leaves(0, 1).entry(code).bytes());
        let with_condition = |code: &[Instruction]| refusal(&Draft::chart_a().condition(code).bytes());
        let sum_of = |values: usize| [vec![push(1); values], vec![ADD; values - 1]].concat();
        assert_eq!(with_entry(&[push(1)]), 10);
        assert_eq!(with_entry(&[ADD]), 10);
        assert_eq!(with_condition(&sum_of(16)), 0);
        assert_eq!(with_condition(&sum_of(17)), 10);
        assert_eq!(with_condition(&[raise(1)]), 10);
        assert_eq!(with_condition(&[push(1), raise(1)]), 11);
        assert_eq!(with_entry(&[send(1, 0)]), 11);
        assert_eq!(with_entry(&[send(3, 0)]), 9);
    }

    #[test]
    fn depth_is_at_most_eight() {
        let chain = |depth: usize| {
            let mut chart = Draft::new(1, 0);
            for number in 0..depth {
                chart.state(number.saturating_sub(1), ALL_OF, 0);
            }
            refusal(&chart.leaves(depth - 1, 1).bytes())
        };
        assert_eq!(chain(8), 0);
        assert_eq!(chain(9), 6);
    }
}
