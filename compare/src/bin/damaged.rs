//! Makes all calls on damaged benches, on both implementations: `damaged [calls]
//! [seed]` changes octets at random, `damaged octets [seed]` gives every octet of the
//! record every value once. Prints one line of fields; on a difference prints what
//! shows it and fails.

use std::process::ExitCode;

use compare::damage::Damage;
use compare::number;
use compare::record::RECORD_ROOM;

fn main() -> ExitCode {
    let mut arguments = std::env::args().skip(1).peekable();
    let every_octet = arguments.next_if_eq("octets").is_some();
    let calls = if every_octet { 0 } else { number(arguments.next(), 1_000_000) };
    let seed = number(arguments.next(), 1);
    let mut damage = Damage::new(seed);
    let result = if every_octet { octets(&mut damage) } else { rounds(&mut damage, calls) };
    if let Err(fault) = result {
        println!("difference={fault:?} seed={seed} bench={}", damage.benches);
        damage.after.lines.iter().for_each(|line| println!("{line}"));
        return ExitCode::FAILURE;
    }
    let both = &damage.after.both;
    println!(
        "difference=none seed={seed} made={} benches={} passed={} refusal1={} short={} looks={} replaced={} {} {} {}",
        damage.calls(),
        damage.benches,
        damage.passed,
        both.damaged,
        both.short,
        both.looks,
        both.replaced,
        both.past_grant.fields(),
        both.reserved.fields(),
        both.tally.fields()
    );
    ExitCode::SUCCESS
}

fn octets(damage: &mut Damage) -> Result<(), String> {
    (0..RECORD_ROOM).try_for_each(|place| damage.octet(place))
}

fn rounds(damage: &mut Damage, calls: u64) -> Result<(), String> {
    while damage.calls() < calls {
        damage.round()?;
    }
    Ok(())
}
