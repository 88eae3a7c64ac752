//! Random cases: charts of many features and of every size, damaged ones, images, and the calls with all that is lent to them;
//! sessions.
pub mod cases;
mod charts;
mod code;
mod damage;
mod damaged_code;
mod damaged_tables;
mod disturb;
pub mod images;
mod lively;
pub mod random;
pub mod sessions;
mod shapes;
mod trees;
mod weights;
mod wiring;
