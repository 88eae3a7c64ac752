//! Tables as docs/PERFORMANCE.md has them, and the way numbers stand in them.
use crate::calls::NAMES;

pub fn begin(title: &str, columns: &[String]) {
    println!("\n### {title}\n");
    row(columns);
    println!("|{}", "---|".repeat(columns.len()));
}

pub fn row(cells: &[String]) {
    println!("| {} |", cells.join(" | "));
}

/// Columns of other names, then one for each program, then others.
pub fn columns(before: &[&str], after: &[&str]) -> Vec<String> {
    [before, &NAMES, after].concat().into_iter().map(String::from).collect()
}

/// The columns behind the programs where a copy stands beside them.
pub const WITH_COPY: [&str; 4] = ["a copy", "proved / second", "proved / plain", "proved / copy"];

/// The cells of the programs and of those columns.
pub fn times_with_copy([proved, second, plain, copy]: [f64; 4]) -> Vec<String> {
    let ratios = [second, plain, copy].map(|other| number(proved / other));
    [&[proved, second, plain, copy].map(ns)[..], &ratios].concat()
}

/// A whole number with its thousands apart.
pub fn whole(x: f64) -> String {
    let digits = format!("{:.0}", x.abs());
    let mut text = String::from(if x < 0.0 { "-" } else { "" });
    for (place, digit) in digits.chars().enumerate() {
        if place > 0 && (digits.len() - place) % 3 == 0 {
            text.push(',');
        }
        text.push(digit);
    }
    text
}

/// A number with two decimals, if it is small.
pub fn number(x: f64) -> String {
    match x.abs() {
        size if size < 9.995 => format!("{x:.2}"),
        size if size < 99.95 => format!("{x:.1}"),
        _ => whole(x),
    }
}

pub fn ns(x: f64) -> String {
    number(x) + " ns"
}
