//! Plays a paper sheet from standard input.

use std::io;

use exam_bench::sheet;

fn main() -> io::Result<()> {
    sheet::run(&mut io::stdin().lock(), &mut io::stdout().lock())
}
