//! The figures that were wanted, and which of them are reached.
use crate::table;

pub struct Figure {
    pub what: String,
    pub measured: f64,
    pub wanted: f64,
}

impl Figure {
    pub fn new(what: impl Into<String>, measured: f64, wanted: f64) -> Figure {
        Figure { what: what.into(), measured, wanted }
    }

    /// As it is printed: what the digits do not tell does not count.
    fn reached(&self) -> &'static str {
        let apart = table::number(self.measured) != table::number(self.wanted);
        if self.measured > self.wanted && apart {
            "not reached"
        } else {
            "reached"
        }
    }
}

pub fn print(figures: &[Figure]) {
    table::begin("Wanted", &["measured", "figure", "wanted", ""].map(String::from));
    for figure in figures {
        let (measured, wanted) = (table::number(figure.measured), table::number(figure.wanted));
        table::row(&[figure.what.clone(), measured, wanted, figure.reached().into()]);
    }
}
