//! The session program: a chart and its events in, lines out.

use super::calls::{Calls, BOUND_WEIGHT, ITEMS_WEIGHT, LARGEST_ALLOWANCE, UNITS_WEIGHT};
use super::faults::Fault;
use super::image::Image;
use super::refusal::Refusal;
use super::trace::Trace;

const LARGEST_INPUT: usize = 16_384;
const TRACE_BYTES: usize = 1024;
const EVENT_BYTES: usize = 3;
const LIFT: u32 = 0;
const BAD_SESSION: &str = "bad session\n";

/// The refusal is the lowest byte of every packed answer.
fn refusal_of(answer: u64) -> u64 {
    answer % 256
}

pub fn answer(calls: &Calls, input: &[u8]) -> Vec<u8> {
    let lines = match split_chart(input) {
        Some((chart, events)) if input.len() <= LARGEST_INPUT => session_lines(calls, chart, events),
        _ => BAD_SESSION.to_string(),
    };
    lines.into_bytes()
}

/// The chart part of the input and what follows it.
fn split_chart(input: &[u8]) -> Option<(&[u8], &[u8])> {
    let (length, rest) = input.strip_prefix(b"SE")?.split_first_chunk()?;
    rest.split_at_checked(usize::from(u16::from_le_bytes(*length)))
}

fn session_lines(calls: &Calls, chart: &[u8], events: &[u8]) -> String {
    let mut board = [0; Image::BYTES];
    calls.fresh(chart, &mut board, LIFT);
    let bound = calls.bound(chart);
    let refusal = refusal_of(bound);
    let mut lines = format!("{refusal} {}\n", bound / BOUND_WEIGHT);
    let chart_refused = (1..=Refusal::BarredOp.number()).contains(&refusal);
    if !chart_refused && (refusal == 0 || !calls.rules().wrong(Fault::BoundRefusalEndsSession)) {
        run_events(calls, chart, &mut board, events, &mut lines);
    }
    lines
}

fn run_events(calls: &Calls, chart: &[u8], board: &mut [u8], events: &[u8], lines: &mut String) {
    let mut trace = [0; TRACE_BYTES];
    for record in events.chunks(EVENT_BYTES) {
        let [b'E', b'V', event] = *record else {
            let ignored = record.len() < EVENT_BYTES && calls.rules().wrong(Fault::CutEventIgnored);
            lines.push_str(if ignored { "" } else { BAD_SESSION });
            if calls.rules().wrong(Fault::BadSessionGoesOn) {
                continue;
            }
            return;
        };
        let answer = calls.step(chart, board, &mut trace, LIFT, u32::from(event), LARGEST_ALLOWANCE);
        lines.push_str(&event_line(answer, &trace));
        if refusal_of(answer) != 0 && calls.rules().wrong(Fault::RefusalEndsSession) {
            return;
        }
    }
}

fn event_line(answer: u64, trace: &[u8]) -> String {
    let count = answer % UNITS_WEIGHT / ITEMS_WEIGHT;
    let mut line = format!("{} {} {count}", refusal_of(answer), answer / UNITS_WEIGHT);
    for item in trace.chunks_exact(Trace::ITEM_BYTES).take(count as usize) {
        let number = item.iter().rev().fold(0, |number, &byte| number * 256 + u32::from(byte));
        line.push_str(&format!(" {number}"));
    }
    line.push('\n');
    line
}

#[cfg(test)]
mod tests {
    use super::super::trial::*;
    use crate::draft::*;

    const LINES_OF_CHART_A: &str = "0 25\n\
        0 2 2 65536 65537\n\
        0 6 6 196608 262144 131073 327680 65538 393217\n\
        0 2 2 196608 196610\n";

    fn session_of_chart_a(events: &[u8]) -> Vec<u8> {
        [b"SE\x54\x00".as_slice(), &Draft::chart_a().bytes(), events].concat()
    }

    fn answer(input: &[u8]) -> String {
        String::from_utf8(PAPER.session(input)).expect("the lines are plain text")
    }

    #[test]
    fn chart_a_with_events_1_1_2() {
        assert_eq!(answer(&session_of_chart_a(b"EV\x01EV\x01EV\x02")), LINES_OF_CHART_A);
    }

    #[test]
    fn a_refused_event_does_not_end_the_session() {
        let lines = answer(&session_of_chart_a(b"EV\x03EV\x01EV\x01EV\x02"));
        assert_eq!(lines, LINES_OF_CHART_A.replacen("25\n", "25\n14 0 0\n", 1));
    }

    #[test]
    fn wrong_and_cut_event_records() {
        let good = LINES_OF_CHART_A.lines().take(2).collect::<Vec<_>>().join("\n");
        for rest in [b"EX\x01EV\x01".as_slice(), b"EV", b"E"] {
            let events = [b"EV\x01", rest].concat();
            assert_eq!(answer(&session_of_chart_a(&events)), format!("{good}\nbad session\n"));
        }
    }

    #[test]
    fn inputs_that_are_no_session() {
        let full = session_of_chart_a(b"");
        let mut long = full.clone();
        long.resize(16_385, b'E');
        for input in [b"".as_slice(), b"SE\x00", &full[1..], &full[..full.len() - 1], &long] {
            assert_eq!(answer(input), "bad session\n");
        }
    }

    #[test]
    fn a_refused_chart_ends_the_session() {
        assert_eq!(answer(b"SE\x00\x00EV\x01"), "1 0\n");
    }
}
