//! What bench/run prints: the proved calls beside the second program, the plain program, other engines and copies of the bytes.
mod calls;
mod charts;
mod checks;
#[path = "../second/draft.rs"]
mod draft;
mod events;
mod full;
mod growth;
mod host;
#[path = "../second/library.rs"]
mod library;
#[path = "plain/lifts.rs"]
mod lifts;
mod measure;
mod processes;
mod series;
mod stack;
mod table;
mod wanted;

#[allow(dead_code)] // its deliberate faults are not measured, nor its sessions
#[path = "../second/program/mod.rs"]
mod second;

/// As bench/run has it: the commands of the two programs of one long block, proved and plain, then those of the peers.
fn main() {
    let words: Vec<String> = std::env::args().skip(1).collect();
    match &words[..] {
        [profile, chart] if profile == "profile" => events::for_a_profile(chart),
        [long_block, plain_long_block, peers @ ..] => measure_all(long_block, plain_long_block, peers),
        _ => println!("measure LONG-BLOCK PLAIN-LONG-BLOCK [PEER]...\nmeasure profile CHART"),
    }
}

fn measure_all(long_block: &str, plain_long_block: &str, peers: &[String]) {
    let mut figures = processes::two_leaves(peers);
    figures.extend(events::on_charts());
    events::on_a_board();
    figures.extend(checks::on_full_charts());
    checks::parts_of_an_event();
    growth::print();
    processes::long_block(long_block, plain_long_block);
    figures.extend(stack::of_the_deepest_step());
    wanted::print(&figures);
}
