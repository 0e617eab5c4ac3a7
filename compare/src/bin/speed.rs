//! Times both benches: `speed` prints a line for each call, one for a mixed paper, and one for
//! each of some presses of run beside their moves, made one by one;
//! `speed paper [calls]` prints such a paper as lines of a sheet, for timing the
//! sheets; `speed proved [calls]` plays it many times on the proved bench alone, for a
//! profiler.

use compare::{exports, number, record, speed};
use exam_bench::player::Lengths;
use exam_bench::sheet;

const ROUNDS: usize = 10_000;
const PAPER_CALLS: u64 = 100_000;
/// Moves that presses of one kind make in all.
const MOVES: usize = 5_000_000;
const SEED: u64 = 1;
/// How often the paper is played for a profiler.
const REPEATED: usize = 40;

fn main() {
    let mut arguments = std::env::args().skip(1);
    let what = arguments.next();
    let calls = number(arguments.next(), PAPER_CALLS) as usize;
    let paper = |lengths| speed::mixed_paper(calls, SEED, lengths);
    match what.as_deref() {
        Some("paper") => {
            paper(Lengths::Short).iter().for_each(|call| println!("{}", sheet::write_call(call)));
        }
        Some("proved") => {
            let (mut area, mut buffer) = (vec![0; record::AREA], vec![0; 1024]);
            let paper = paper(Lengths::Any);
            for call in (0..REPEATED).flat_map(|_| &paper) {
                exports::play(&mut area, &mut buffer, call, exports::argument(call));
            }
        }
        _ => {
            for case in speed::cases() {
                println!("{}", case.time(ROUNDS).fields(case.name));
            }
            println!("{}", speed::time_paper(&paper(Lengths::Any)).fields("a mixed paper"));
            speed::presses().iter().for_each(|press| println!("{}", press.time(MOVES)));
        }
    }
}
