//! What runs as a process of its own, in turn with ours: other engines on two leaves, and the programs of one long block.
use crate::calls::PROVED;
use crate::charts;
use crate::host::{agree, Host, LIFT};
use crate::measure::{median, medians_of};
use crate::table::{self, ns, number};
use crate::wanted::Figure;
use std::process::Command;
use std::time::Instant;

const TURNS: usize = 9;

/// An event on two leaves, in times of theirs.
const WANTED: [(&str, f64); 2] = [("Boost.Statechart", 2.5), ("Qt SCXML", 0.05)];

/// Each peer is a command that prints its name and its time, `NAME: N ns an event`.
pub fn two_leaves(peers: &[String]) -> Vec<Figure> {
    let case = charts::two_leaves();
    agree(&case, LIFT);
    let (mut ours, mut theirs) = (vec![], vec![(String::new(), vec![]); peers.len()]);
    for _ in 0..TURNS {
        ours.extend(medians_of([Host::new(PROVED, &case, LIFT).events()]));
        for (peer, (name, times)) in peers.iter().zip(&mut theirs) {
            let (said, time) = told(&output_of(peer));
            *name = said;
            times.push(time);
        }
    }
    let ours = median(ours);
    table::begin("An event on two leaves", &["engine", "an event", "proved / it"].map(String::from));
    table::row(&["proved".into(), ns(ours), String::new()]);
    let times = theirs.into_iter().map(|(name, times)| (name, median(times)));
    times.filter_map(|(name, time)| beside(ours, &name, time)).collect()
}

fn beside(ours: f64, name: &str, theirs: f64) -> Option<Figure> {
    table::row(&[name.into(), ns(theirs), number(ours / theirs)]);
    let (_, wanted) = WANTED.into_iter().find(|(peer, _)| *peer == name)?;
    Some(Figure::new(format!("an event on two leaves, in times of {name}'s"), ours / theirs, wanted))
}

fn told(text: &str) -> (String, f64) {
    let (name, rest) = text.split_once(": ").expect("a name first");
    let (time, _) = rest.split_once(" ns an event").expect("its time then");
    (name.into(), time.parse().expect("in nanoseconds"))
}

/// The words of a command, run; what it prints.
fn output_of(command: &str) -> String {
    let words: Vec<&str> = command.split_whitespace().collect();
    let output = Command::new(words[0]).args(&words[1..]).output().unwrap();
    assert!(output.status.success(), "{command}");
    String::from_utf8(output.stdout).unwrap()
}

/// The evaluator alone: a block of 255 instructions, 100,000 times.
pub fn long_block(proved: &str, plain: &str) {
    const INSTRUCTIONS: f64 = 255.0 * 100_000.0;
    let printed = include_str!("../crates/long_block/stdout");
    let mut times = [vec![], vec![]];
    for _ in 0..TURNS {
        for (program, times) in [proved, plain].into_iter().zip(&mut times) {
            let start = Instant::now();
            assert_eq!(output_of(program), printed);
            times.push(1e9 * start.elapsed().as_secs_f64() / INSTRUCTIONS);
        }
    }
    let [proved, plain] = times.map(median);
    table::begin("An instruction in a block of 255", &["proved", "plain", "proved / plain"].map(String::from));
    table::row(&[ns(proved), ns(plain), number(proved / plain)]);
}
