//! The time of an event: on charts of several sizes, beside a copy of the same bytes; and for the 64 lifts of a board.
use crate::calls::PROVED;
use crate::charts;
use crate::host::{agree, events_with_each, Host, IMAGE, ITEM, LIFT, LIFTS};
use crate::measure::{copying, medians_of, opaque};
use crate::series;
use crate::table::{self, columns, ns, number, times_with_copy, whole, WITH_COPY};
use crate::wanted::Figure;
use std::time::{Duration, Instant};

/// An event in times of the plain program's.
const WANTED_OF_PLAIN: f64 = 1.0;

/// The copy is of what a call has to read or write: the chart, the lift's image, and the items it notes in the trace.
pub fn on_charts() -> Vec<Figure> {
    let title = "An event, beside a copy of the chart, of the lift's image and of the items noted";
    table::begin(title, &columns(&["chart", "bytes", "units", "items"], &WITH_COPY));
    let mut figures = vec![];
    // the two leaves stand beside the peers
    for (name, case) in &charts::measured()[1..] {
        let work = agree(case, LIFT);
        let [proved, second, plain] = events_with_each(case, LIFT);
        let copy = copying(&[case.chart.len(), IMAGE, ITEM * work.items.round() as usize]);
        let times = medians_of([proved, second, plain, copy]);
        let cells = vec![name.to_string(), whole(case.chart.len() as f64), number(work.units), number(work.items)];
        table::row(&[cells, times_with_copy(times)].concat());
        let [proved, _, plain, _] = times;
        let what = format!("an event on {name}, in times of the plain program's");
        figures.push(Figure::new(what, proved / plain, WANTED_OF_PLAIN));
    }
    figures
}

/// Every lift of a board in turn, each with events of its own.
pub fn on_a_board() {
    let case = charts::middle();
    agree(&case, LIFTS);
    let times = medians_of(events_with_each(&case, LIFTS));
    let title = "64 lifts in turn on one board, the middle chart";
    table::begin(title, &columns(&[""], &["proved / second", "proved / plain"]));
    let row = |name: &str, [proved, second, plain]: [f64; 3], text: fn(f64) -> String| {
        let ratios = [second, plain].map(|other| number(proved / other));
        table::row(&[&[name.to_string()][..], &[proved, second, plain].map(text), &ratios].concat());
    };
    row("an event", times, ns);
    row("events a second", times.map(|time| 1e9 / time), whole);
}

/// Nothing but events of the proved engine on one chart for a while, for a program that tells where the time goes.
pub fn for_a_profile(chart: &str) {
    const LONG: Duration = Duration::from_secs(5);
    let most_units = series::units().pop().map(|grown| ("the most units", grown.case));
    let (_, case) = charts::measured().into_iter().chain(most_units).find(|(name, _)| *name == chart).expect("its name");
    let (mut host, start) = (Host::new(PROVED, &case, LIFT), Instant::now());
    while start.elapsed() < LONG {
        for _ in 0..100 {
            opaque(host.next());
        }
    }
}
