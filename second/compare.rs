//! The proved library, the second program and the plain program of the benchmarks on the same random cases: every answer and
//! every byte has to be the same.
mod draft;
mod engines;
mod generate;
mod library;
mod met;
#[path = "../bench/plain/lifts.rs"]
mod plain;
mod program;

use engines::{Engine, Outcome, Plain, Proved};
use generate::cases::{Answer, Case, Stream};
use generate::images::IMAGE;
use generate::random::Random;
use generate::sessions;
use met::Met;
use program::calls::{Calls, PAPER};
use program::faults::{Fault, ALL};
use std::io::Write;
use std::panic::{catch_unwind, UnwindSafe};
use std::process::{exit, Command, Stdio};
use std::time::Instant;

const USAGE: &str = "compare run CASES SEED [SESSION-PROGRAM [WORDS]]\ncompare faults [SESSION-PROGRAM [WORDS]]";
/// What the proved library is compared with.
const OTHERS: [(&str, &dyn Engine); 2] = [("second", &PAPER), ("plain", &Plain)];
const SESSIONS: usize = 400;
const FAULT_SEED: u64 = 1;
const FAULT_CASES: usize = 20_000;
const FAULT_SESSIONS: usize = 400;

fn main() {
    let words: Vec<String> = std::env::args().skip(1).collect();
    let words: Vec<&str> = words.iter().map(String::as_str).collect();
    let done = match words[..] {
        ["run", cases, seed, ref program @ ..] => match (cases.parse(), seed.parse()) {
            (Ok(cases), Ok(seed)) => run(cases, seed, program),
            _ => Err(USAGE.to_string()),
        },
        ["faults", ref program @ ..] => find_faults(program),
        _ => Err(USAGE.to_string()),
    };
    if let Err(message) = done {
        eprintln!("{message}");
        exit(1);
    }
}

fn run(cases: usize, seed: u64, program: &[&str]) -> Result<(), String> {
    let start = Instant::now();
    let (mut stream, mut met) = (Stream::new(seed), Met::default());
    for number in 1..=cases {
        let case = stream.next();
        let ours = Outcome::of(&Proved, &case);
        if let Some(trouble) = difference(&case, &ours).or_else(|| valid_but_refused(&case, &ours)) {
            return Err(format!("seed {seed}, case {number}: {}\n{trouble}", told(&case)));
        }
        met.count(&case, &ours);
        stream.learn(&case, ours.answer, ours.board.slice());
    }
    met.print();
    println!("{cases} cases of seed {seed}, all alike, in {:.1} s", start.elapsed().as_secs_f64());
    if !program.is_empty() {
        compare_sessions(seed, program)?;
    }
    match met.missing()[..] {
        [] => Ok(()),
        ref missing => Err(format!("never met: {missing:?}")),
    }
}

/// What a person needs to see a case again.
fn told(case: &Case) -> String {
    let mut text = format!("{:?}, lift {}, event {}, allowance {}", case.call, case.lift, case.event, case.allowance);
    text += &format!(", board of {} bytes, trace of {} bytes\n", case.board.len(), case.trace);
    let image = case.board.chunks(IMAGE).nth(case.lift as usize).unwrap_or_default();
    text + &format!("chart: {}\nimage: {}", hex(&case.chart), hex(image))
}

/// What the first of the others that does not do the same does otherwise. They cannot write beyond what they are lent, so this
/// compares the guards, too.
fn difference(case: &Case, ours: &Outcome) -> Option<String> {
    let mut outcomes = OTHERS.iter().map(|(name, engine)| (name, Outcome::of(*engine, case)));
    let (other, theirs) = outcomes.find(|(_, theirs)| ours != theirs)?;
    let mut lines = vec![answer_told("proved", ours.answer), answer_told(other, theirs.answer)];
    let lent =
        [("chart", &ours.chart, &theirs.chart), ("board", &ours.board, &theirs.board), ("trace", &ours.trace, &theirs.trace)];
    for (name, one, two) in lent {
        if let Some((place, one, two)) = one.first_difference(two) {
            lines.push(format!("{name} byte {place}: proved {one}, {other} {two}"));
        }
    }
    Some(lines.join("\n"))
}

fn answer_told(name: &str, answer: u64) -> String {
    let told = Answer::of_step(answer);
    format!("{name}: {answer} (refusal {}; for a step {} items, {} units)", told.refusal, told.items, told.units)
}

/// Programs that refuse too much would agree, too.
fn valid_but_refused(case: &Case, ours: &Outcome) -> Option<String> {
    let refused = case.valid && (1..=11).contains(&(ours.answer % 256));
    refused.then(|| format!("all refuse a valid chart\n{}", answer_told("proved", ours.answer)))
}

fn hex(bytes: &[u8]) -> String {
    bytes.iter().map(|byte| format!("{byte:02x}")).collect()
}

/// Random sessions through the program and the second program.
fn compare_sessions(seed: u64, program: &[&str]) -> Result<(), String> {
    let mut random = Random::new(seed);
    for number in 1..=SESSIONS {
        let session = sessions::any(&mut random);
        let (ours, theirs) = (output_of(program, &session)?, PAPER.session(&session));
        if ours != theirs {
            return Err(format!("seed {seed}, session {number}: {}\n{}", hex(&session), first_line_apart(&ours, &theirs)));
        }
    }
    println!("{SESSIONS} sessions of seed {seed}, all alike");
    Ok(())
}

fn first_line_apart(ours: &[u8], theirs: &[u8]) -> String {
    let lines = |text: &[u8]| String::from_utf8_lossy(text).split('\n').map(str::to_string).collect::<Vec<String>>();
    let (ours, theirs) = (lines(ours), lines(theirs));
    let same = ours.iter().zip(&theirs).take_while(|(one, two)| one == two).count();
    format!("line {}\nproved: {:?}\nsecond: {:?}", same + 1, ours.get(same), theirs.get(same))
}

/// What a program prints, given this input.
fn output_of(program: &[&str], input: &[u8]) -> Result<Vec<u8>, String> {
    let failed = |error: std::io::Error| format!("{}: {error}", program.join(" "));
    let mut command = Command::new(program[0]);
    command.args(&program[1..]).stdin(Stdio::piped()).stdout(Stdio::piped());
    let mut child = command.spawn().map_err(failed)?;
    // a program that has seen enough may end before it has read all, and the rest is then not taken
    let _ = child.stdin.take().map(|mut stdin| stdin.write_all(input));
    let output = child.wait_with_output().map_err(failed)?;
    match output.status.code() {
        Some(0) => Ok(output.stdout),
        _ => Err(format!("{}: {}, given {}", program.join(" "), output.status, hex(input))),
    }
}

/// Each fault switched on in the second program has to show: in what a call answers or leaves, else in what a session prints.
fn find_faults(program: &[&str]) -> Result<(), String> {
    // a faulty program may fail altogether, which needs no report of its own
    std::panic::set_hook(Box::new(|_| ()));
    let mut hidden = Vec::new();
    for &(fault, name) in ALL {
        if let Some((case, sign)) = case_that_finds(fault) {
            println!("{name}: {sign} in case {case}");
        } else if let Some((session, sign)) = session_that_finds(fault, program)? {
            println!("{name}: {sign} in session {session}");
        } else {
            hidden.push(name);
        }
    }
    match hidden[..] {
        [] => Ok(println!("{} faults, each found", ALL.len())),
        _ => Err(format!("not found: {}", hidden.join(", "))),
    }
}

fn case_that_finds(fault: Fault) -> Option<(usize, &'static str)> {
    let mut stream = Stream::new(FAULT_SEED);
    (1..=FAULT_CASES).find_map(|number| {
        let case = stream.next();
        let ours = Outcome::of(&Proved, &case);
        stream.learn(&case, ours.answer, ours.board.slice());
        Some((number, sign_of(&ours, || Outcome::of(&Calls { fault: Some(fault) }, &case))?))
    })
}

fn session_that_finds(fault: Fault, program: &[&str]) -> Result<Option<(usize, &'static str)>, String> {
    let mut random = Random::new(FAULT_SEED);
    for number in 1..=FAULT_SESSIONS {
        let session = sessions::any(&mut random);
        let right = if program.is_empty() { PAPER.session(&session) } else { output_of(program, &session)? };
        if let Some(sign) = sign_of(&right, || Calls { fault: Some(fault) }.session(&session)) {
            return Ok(Some((number, sign)));
        }
    }
    Ok(None)
}

/// How a fault shows beside what is right, if it does.
fn sign_of<T: PartialEq>(right: &T, faulty: impl FnOnce() -> T + UnwindSafe) -> Option<&'static str> {
    match catch_unwind(faulty) {
        Ok(made) if made == *right => None,
        Ok(_) => Some("differs"),
        Err(_) => Some("fails altogether"),
    }
}
