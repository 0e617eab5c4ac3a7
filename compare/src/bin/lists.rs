//! Plays the second implementation's random lists on both benches and brings each to rest:
//! `lists [calls] [seed]`. Where nothing is under way, how many moves presses of run make is
//! foretold. Prints one line of fields; on a difference prints the list that shows it and
//! fails.

use std::process::ExitCode;

use compare::lists::Lists;
use compare::number;

fn main() -> ExitCode {
    let mut arguments = std::env::args().skip(1);
    let calls = number(arguments.next(), 2_000_000);
    let seed = number(arguments.next(), 1);
    let mut lists = Lists::new(seed);
    while lists.both.tally.calls < calls {
        let most = (calls - lists.both.tally.calls) as usize;
        if let Err(fault) = lists.play(most).and_then(|()| lists.rest()) {
            println!("difference={fault:?} seed={seed}");
            lists.lines.iter().for_each(|line| println!("{line}"));
            return ExitCode::FAILURE;
        }
    }
    let both = &lists.both;
    println!("difference=none seed={seed} short={} looks={} {}", both.short, both.looks, both.tally.fields());
    ExitCode::SUCCESS
}
