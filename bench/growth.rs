//! How the time of an event grows: with the chart, with the units, with the depth.
use crate::calls::NAMES;
use crate::host::{agree, events_with_each, LIFT};
use crate::measure::medians;
use crate::series::{self, Grown};
use crate::table::{self, columns, ns, whole};

pub fn print() {
    grow("An event of 5 units on charts of ever more bytes", "bytes", "a byte more", series::bytes());
    grow("Events of ever more units on one chart", "units", "a unit more", series::units());
    grow("An event that runs, leaves and enters every level", "levels", "a level more", series::levels());
}

/// Each row's time, and what each byte, unit or level that it has more than the first row takes. The rows are measured in turn.
fn grow(title: &str, what: &str, more: &str, series: Vec<Grown>) {
    let each_more = NAMES.map(|program| format!("{program}, {more}"));
    table::begin(title, &[columns(&[what], &[]), each_more.into()].concat());
    for Grown { units, case, .. } in &series {
        assert_eq!(agree(case, LIFT).units, *units as f64);
    }
    let times = medians(series.iter().flat_map(|grown| events_with_each(&grown.case, LIFT)).collect());
    let (from, least) = (series[0].to, &times[..NAMES.len()]);
    for (Grown { to, .. }, times) in series.iter().zip(times.chunks(NAMES.len())) {
        let mut cells = vec![whole(*to as f64)];
        cells.extend(times.iter().map(|&time| ns(time)));
        for (time, least) in times.iter().zip(least) {
            cells.push(if *to == from { String::new() } else { ns((time - least) / (to - from) as f64) });
        }
        table::row(&cells);
    }
}
