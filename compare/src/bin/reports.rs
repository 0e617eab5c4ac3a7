//! Asks report on both implementations, before and after payload octets that it does not look
//! into are changed: `reports [benches] [seed]`, on so many benches of lists and as many with
//! forged wires. Prints one line of fields; on a difference prints what shows it and fails.

use std::process::ExitCode;

use compare::number;
use compare::reports::Reports;

fn main() -> ExitCode {
    let mut arguments = std::env::args().skip(1);
    let benches = number(arguments.next(), 10_000);
    let seed = number(arguments.next(), 1);
    let mut reports = Reports::new(seed);
    while reports.met.benches() < benches {
        if let Err(fault) = reports.round() {
            println!("difference={fault:?} seed={seed} bench={}", reports.met.benches());
            reports.lists.lines.iter().for_each(|line| println!("{line}"));
            reports.wires().iter().for_each(|line| println!("{line}"));
            return ExitCode::FAILURE;
        }
    }
    println!("difference=none seed={seed} {}", reports.met.fields());
    ExitCode::SUCCESS
}
