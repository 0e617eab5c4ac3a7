//! Plays random lists of calls with demand 3's observer checking after each call and each
//! move of a press, and that credits stay within the grant; where nothing is under way, how
//! many moves presses of run would make is foretold. Then run is pressed until it makes no
//! move: `demand3 [calls] [seed]`. Prints one line of fields; on a mismatch prints the list
//! that shows it and fails.

use std::process::ExitCode;

use exam_bench::player::{Lengths, Player};
use exam_bench::trial::{Tally, Trial};

/// Calls of a list, presses that bring it to rest aside.
const LIST_CALLS: usize = 250;

fn main() -> ExitCode {
    let mut arguments = std::env::args().skip(1);
    let calls = number(arguments.next(), 1_000_000);
    let seed = number(arguments.next(), 1);
    let mut tally = Tally::default();
    let mut player = Player::new(seed, Lengths::Any);
    while tally.calls < calls {
        let most = LIST_CALLS.min((calls - tally.calls) as usize);
        if let Err((fault, lines)) = play_list(&mut player, &mut tally, most) {
            println!("mismatch={fault:?} seed={seed}");
            print!("{lines}");
            return ExitCode::FAILURE;
        }
    }
    println!("mismatch=none seed={seed} {}", tally.fields());
    ExitCode::SUCCESS
}

fn number(argument: Option<String>, otherwise: u64) -> u64 {
    match argument {
        None => otherwise,
        Some(text) => text.parse().unwrap_or_else(|_| panic!("not a number: {text}")),
    }
}

/// Plays one list of at most so many calls, fresh included, and brings it to rest: then every
/// message taken has been handed out. The account is not only kept, the messages also arrive. A
/// fault comes with the list as sheet lines.
fn play_list(player: &mut Player, tally: &mut Tally, most: usize) -> Result<(), (String, String)> {
    let length = player.list_length(most);
    let profile = player.begin();
    let mut trial = Trial::begin(&profile, tally).map_err(|fault| (fault, String::new()))?;
    let mut played = Ok(());
    while played.is_ok() && trial.events.len() < length {
        let call = player.next_call(&trial.bench);
        played = trial.step(call, tally).map(drop);
    }
    played.and_then(|()| trial.come_to_rest(tally)).map_err(|fault| (fault, trial.lines()))
}
