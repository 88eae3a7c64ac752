//! The time of the check that each call begins with, and its part of an event.
use crate::calls::{Program, PROGRAMS, PROVED};
use crate::charts::{self, Case};
use crate::full;
use crate::host::{Host, LARGEST_ALLOWANCE, LIFT, LIFTS};
use crate::measure::{copying, medians_of};
use crate::table::{self, columns, ns, times_with_copy, whole, WITH_COPY};
use crate::wanted::Figure;

const WANTED_COPIES: f64 = 30.0;

/// A step that is refused for its allowance has the check of chart and image behind it, and does nothing more.
pub fn on_full_charts() -> Vec<Figure> {
    table::begin("The check of a chart of 12,236 bytes, beside a copy of them", &columns(&["chart"], &WITH_COPY));
    let row = |name: &str, case: &Case| {
        let refused = |program| started(program, case).refused(15, LIFT.start, 1, LARGEST_ALLOWANCE + 1);
        let [proved, second, plain] = PROGRAMS.map(refused);
        let times = medians_of([proved, second, plain, copying(&[case.chart.len()])]);
        table::row(&[vec![name.to_string()], times_with_copy(times)].concat());
        let [proved, _, _, copy] = times;
        proved / copy
    };
    let copies = row("the largest chart", &full::largest());
    for count in [4, 16, 255] {
        row(&format!("blocks of {count} instructions, overlapping"), &full::overlapping(count));
    }
    vec![Figure::new("the check of the largest chart, in copies of its bytes", copies, WANTED_COPIES)]
}

/// A host whose lift has started, so that its image has a shape to be checked.
fn started(program: Program, case: &Case) -> Host<'_> {
    let mut host = Host::new(program, case, LIFT);
    assert_eq!(host.next() % 256, 0);
    host
}

/// A call for a lift that is not there ends behind the chart's check, one with event 0 behind the image's.
pub fn parts_of_an_event() {
    let names = ["of a proved event on", "the chart's check", "the image's check", "the step", "in all"];
    table::begin("Where the time of an event goes", &names.map(String::from));
    for (name, case) in &charts::measured() {
        let whole_event = Host::new(PROVED, case, LIFT).events();
        let chart_checked = started(PROVED, case).refused(12, LIFTS.end, 1, LARGEST_ALLOWANCE);
        let image_checked = started(PROVED, case).refused(14, LIFT.start, 0, LARGEST_ALLOWANCE);
        let [all, chart, image] = medians_of([whole_event, chart_checked, image_checked]);
        let share = |time: f64| format!("{} ns, {:.0} %", whole(time), 100.0 * time / all);
        table::row(&[name.to_string(), share(chart), share(image - chart), share(all - image), ns(all)]);
    }
}
