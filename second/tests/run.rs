//! Run to rest: the order of its moves, where it stops, what it tells, and that benches which
//! lists of calls made come to rest within the bound, with no message in hand.

mod common;
use common::*;
use exam_bench::bench::{Bench, MOVES};
use exam_bench::call::{Call, Outcome};
use exam_bench::connection::CONN_IDS;
use exam_bench::controller::STORE_PACKETS;
use exam_bench::observer::{Event, Observer};
use exam_bench::player::{Lengths, Player, Random};
use exam_bench::trial::presses::{bound, check_silence, check_told};
use exam_bench::trial::{Tally, Trial};

/// The request's order, by lines of a sheet.
const ORDER: [&str; 14] = [
    "ev=up arg=",
    "ev=down arg=",
    "ev=consume arg=00",
    "ev=consume arg=02",
    "ev=consume arg=03",
    "ev=consume arg=04",
    "ev=consume arg=05",
    "ev=credit arg=",
    "ev=push arg=00",
    "ev=push arg=02",
    "ev=push arg=03",
    "ev=push arg=04",
    "ev=push arg=05",
    "ev=reply arg=",
];

/// What a press tells, where nothing is dropped.
fn told(moves: usize, message: Option<&[u8]>) -> Outcome {
    Outcome { moves, message: message.map(<[u8]>::to_vec), ..Outcome::default() }
}

// The order

/// All five connections open at both ends, and nothing to move.
fn at_rest(profile: &[u8]) -> Bench {
    let mut bench = active(profile, 0);
    for _ in 2..=5 {
        command(&mut bench, 0, 4, &[1, 0]);
    }
    assert_eq!(bench.clone().make_move(), None);
    bench
}

/// Makes a move possible, and none that was not.
fn allow(bench: &mut Bench, line: &str) {
    match exam_bench::sheet::read_line(line.as_bytes()).unwrap() {
        Call::Up => bench.forge_up(&DROPPED),
        Call::Down => bench.forge_down(&DROPPED),
        Call::Consume(conn) => bench.forge_stored(conn, &[conn, 0, 0]),
        Call::Credit => bench.controller.connections[4].as_mut().unwrap().owed = 1,
        Call::Push(conn) => bench.forge_in_hand(conn, &[7], 0),
        Call::Reply => bench.forge_endpoint_message(&[7], 0),
        other => panic!("{other:?} is no move"),
    }
}

/// Every choice of the fourteen, so every pair of neighbours too: the first of them is made.
#[test]
fn the_first_possible_move_is_made() {
    let lines = MOVES.map(|call| exam_bench::sheet::write_call(&call));
    assert_eq!(lines, ORDER);
    let rest = at_rest(PROFILE);
    for set in 1..1 << ORDER.len() {
        let mut bench = rest.clone();
        let possible = |place: &usize| set >> place & 1 == 1;
        (0..ORDER.len()).filter(possible).for_each(|place| allow(&mut bench, ORDER[place]));
        let mut played = bench.clone();
        let made = played.make_move().unwrap();
        let first = (0..ORDER.len()).find(possible).unwrap();
        assert_eq!(exam_bench::sheet::write_call(&made.call), ORDER[first], "of {set:014b}");
        assert_eq!(bench.play(&made.call), made.outcome);
        assert_eq!(bench, played);
    }
}

/// Neighbours that a bench of calls alone decides, with what the press then comes to.
#[test]
fn the_order_on_benches_that_calls_made() {
    let sends = |conns: &[u8]| {
        let mut bench = at_rest(PROFILE);
        conns.iter().for_each(|conn| drop(taken(bench.send(*conn, &[*conn]))));
        bench
    };
    // up before down, and both before consume
    let mut bench = sends(&[0, 2]);
    for call in [Call::Push(2), Call::Down, Call::Consume(2), Call::Push(0)] {
        taken(bench.play(&call));
    }
    assert_eq!(bench.make_move().unwrap().call, Call::Up);
    assert_eq!(bench.make_move().unwrap().call, Call::Down);
    assert_eq!(bench.make_move().unwrap().call, Call::Consume(0));
    assert_eq!(bench.make_move().unwrap().call, Call::Credit);
    assert_eq!(bench.make_move().unwrap().call, Call::Up);
    assert_eq!(bench.make_move(), None);
    // consume before push, pushes by their connections, and reply last
    let mut bench = sends(&CONN_IDS);
    taken(bench.air(&[8]));
    let starts: Vec<Call> = std::iter::from_fn(|| bench.make_move())
        .map(|made| made.call)
        .filter(|call| matches!(call, Call::Push(_) | Call::Reply))
        .collect();
    assert_eq!(starts, [0, 2, 3, 4, 5].map(Call::Push).into_iter().chain([Call::Reply]).collect::<Vec<_>>());
}

// Moves that are refused

#[test]
fn a_push_without_credit_waits_while_the_others_go_on() {
    let mut bench = at_rest(PROFILE);
    bench.forge_holding(2, 2, 0);
    bench.forge_in_hand(2, &[1; 9], 0);
    taken(bench.send(3, &[3]));
    refuses(&bench, 9, |bench| bench.push(2));
    assert_eq!(press(&mut bench), told(3, Some(&[3])));
    assert_eq!(press(&mut bench), told(1, Some(&[3])));
    // 2 has no credit under way: no list of calls leaves it so
    refuses(&bench, 9, |bench| bench.push(2));
    assert_eq!(press(&mut bench), told(0, None));
}

#[test]
fn a_full_store_makes_down_wait_for_consume() {
    let mut bench = loopbacks(UNLIMITED, 1);
    for _ in 0..STORE_PACKETS {
        bench.forge_stored(2, &[0x12, 0, 1, 7]);
    }
    bench.forge_down(&[2, 0, 1, 9]);
    refuses(&bench, 12, |bench| bench.down());
    assert_eq!(bench.make_move().unwrap().call, Call::Consume(2));
    assert_eq!(bench.make_move().unwrap().call, Call::Up);
    assert_eq!(bench.make_move().unwrap().call, Call::Down);
    // seven more come back one by one, then the last
    assert_eq!(press(&mut bench), told(15, Some(&[7, 7, 7, 7, 7, 7, 7, 7, 9])));
}

#[test]
fn full_wires_are_emptied() {
    let mut bench = at_rest(PROFILE);
    fill_up(&mut bench, full());
    fill_down(&mut bench, full());
    bench.forge_holding(2, 2, 1);
    bench.forge_stored(2, &[2, 0, 1, 7]);
    taken(bench.air(&[8, 5]));
    refuses(&bench, 4, |bench| bench.consume(2));
    refuses(&bench, 4, |bench| bench.reply());
    assert_eq!(press(&mut bench), Outcome { drop: true, ..told(33, Some(&[7])) });
    assert_eq!(press(&mut bench), told(1, Some(&[7])));
    assert_eq!(press(&mut bench), told(2, Some(&[5])));
    assert_eq!(press(&mut bench), told(0, None));
}

/// A close whose response is lost keeps its message in hand: no list of calls comes to that.
#[test]
fn a_push_that_waits_for_a_close_is_no_move() {
    let mut bench = loopbacks(PROFILE, 1);
    taken(bench.send(2, &[1]));
    taken(bench.command(0, 5, &[2]));
    bench.down_wire.clear();
    refuses(&bench, 10, |bench| bench.push(2));
    assert_eq!(press(&mut bench), told(0, None));
}

// What a press tells

#[test]
fn a_press_ends_after_the_move_that_hands_a_message_out() {
    let mut bench = loopbacks(PROFILE, 1);
    taken(bench.send(2, &[1, 2, 3, 4, 5]));
    // push, down, consume, up, push, down, consume; then up
    assert_eq!(press(&mut bench), told(7, Some(&[1, 2, 3, 4, 5])));
    assert_eq!(report(&bench, 2), [1, 0, 0, 0, 1]);
    assert_eq!(press(&mut bench), told(1, Some(&[1, 2, 3, 4, 5])));
    assert_eq!(press(&mut bench), told(0, None));
}

#[test]
fn an_empty_message_ends_a_press_too() {
    let mut bench = at_rest(PROFILE);
    taken(bench.send(0, &[]));
    taken(bench.air(&[8]));
    assert_eq!(press(&mut bench), told(3, Some(&[])));
    assert_eq!(press(&mut bench), told(4, Some(&[])));
    assert_eq!(press(&mut bench), told(0, None));
}

#[test]
fn a_press_answers_commands_and_goes_on() {
    let mut bench = fresh(PROFILE);
    taken(bench.command(0, 0, &[1]));
    assert_eq!(press(&mut bench), told(3, None));
    taken(bench.command(0, 1, &[0, 0]));
    assert_eq!(press(&mut bench), told(2, None));
    taken(bench.command(0, 4, &[&[1, 0][..], &[7; 62]].concat()));
    assert_eq!(press(&mut bench), told(3, None));
    assert_eq!(bench, loopbacks(PROFILE, 1));
}

#[test]
fn at_rest_nothing_happens() {
    let cold = [("fresh", fresh(PROFILE)), ("a long profile", fresh(UNLIKE))];
    for (name, bench) in rf_states().into_iter().chain(cold) {
        let mut pressed = bench.clone();
        assert_eq!(press(&mut pressed), told(0, None), "{name}");
        assert_eq!(pressed, bench, "{name}");
    }
}

/// The dropped packet is the first, one in the middle or the last of four.
#[test]
fn the_drop_flag_is_that_of_any_move() {
    for place in 0..4 {
        for wire in [Bench::forge_up, Bench::forge_down] {
            let mut bench = loopbacks(UNLIMITED, 1);
            for other in 0..4 {
                wire(&mut bench, if other == place { &DROPPED } else { &[0x12, 0, 1, 7] });
            }
            let moves = press(&mut bench);
            assert!(moves.drop && moves.message.is_none() && moves.moves >= 4, "{moves:?}");
            assert_eq!(press(&mut bench), told(0, None));
        }
    }
}

/// A credit for a connection that is not open is dropped, and the message after it ends the press.
#[test]
fn an_entry_dropped_before_the_message_is_told() {
    let mut bench = loopbacks(PROFILE, 1);
    bench.forge_holding(2, 2, 0);
    bench.forge_up(&octets("60 06 05 02 02 01 03 01"));
    bench.forge_up(&octets("02 00 01 AA"));
    assert_eq!(press(&mut bench), Outcome { drop: true, ..told(2, Some(&[0xAA])) });
}

#[test]
fn reserved_bits_of_the_packets_moved_are_not_told() {
    let mut bench = loopbacks(UNLIMITED, 1);
    bench.forge_down(&[2, 0xFC, 1, 7]);
    bench.forge_up(&[0x60, 0xC6, 1, 0]);
    assert_ne!(takes(&bench, |bench| bench.down()).rfu, 0);
    assert_ne!(takes(&bench, |bench| bench.up()).rfu, 0);
    assert_eq!(press(&mut bench), told(3, Some(&[7])));
}

/// Four moves for a segment on a loopback, five on connection 0 with flow control and three
/// without, two for a segment of the endpoint's.
#[test]
fn long_messages_everywhere() {
    for (profile, at_0) in [(&[32, 1, 1, 1, 1], 5), (&[32, 1, 255, 1, 255], 3), (&[32, 1, 8, 1, 8], 5)] {
        let mut bench = at_rest(profile);
        CONN_IDS.iter().for_each(|conn| drop(taken(bench.send(*conn, &[*conn; 1024]))));
        taken(bench.air(&[&[8][..], &[7; 1024]].concat()));
        assert_eq!(bound(&bench), 6 * 5 * 1024 + 2 * 5 + 2);
        assert_eq!(moves_to_rest(&mut bench), (4 * 4 + at_0) * 1024 + 2 * 5);
    }
}

// Credits past a grant, which no list of calls brings about: refusal 1 would be the next answer

/// The host has its whole grant, and more credits come.
#[test]
fn a_move_that_leaves_credits_held_past_the_grant_is_the_last() {
    for credits in [&[0x60, 6, 3, 1, 2, 1][..], &[2, 1, 1, 0xAA], &[0x12, 3, 0]] {
        let mut bench = loopbacks(PROFILE, 2);
        bench.forge_up(&DROPPED);
        bench.forge_up(credits);
        bench.forge_up(&DROPPED);
        taken(bench.send(3, &[3]));
        let press = press(&mut bench);
        assert_eq!((press.moves, press.drop), (2, true));
        assert!(bench.is_past_grant() && bench.up_wire().len() == 1);
        assert_eq!(bench.clone().make_move(), None);
        takes(&bench, |bench| bench.up());
    }
}

/// The endpoint's end owes its whole grant, and one more packet is consumed.
#[test]
fn a_move_that_leaves_credits_owed_past_the_grant_is_the_last() {
    let mut bench = at_rest(PROFILE);
    bench.forge_owing(0, 1, 1);
    for _ in 0..3 {
        bench.forge_stored(0, &[0x10, 0, 1, 7]);
    }
    assert_eq!(press(&mut bench), told(1, None));
    assert_eq!(report(&bench, 0), [1, 0, 2, 2, 0]);
    assert_eq!(bench.clone().make_move(), None);
}

/// A loopback's packet carries some of what is owed: the count is within the grant again.
#[test]
fn a_sum_past_the_grant_that_is_carried_away_ends_no_press() {
    let mut bench = loopbacks(PROFILE, 1);
    bench.forge_owing(2, 4, 4);
    bench.forge_holding(2, 4, 0);
    bench.forge_stored(2, &[0x12, 0, 1, 7]);
    bench.forge_stored(2, &[2, 0, 1, 8]);
    // consume, up, consume
    assert_eq!(press(&mut bench), told(3, Some(&[7, 8])));
    assert_eq!(report(&bench, 2), [3, 0, 0, 0, 3]);
}

#[test]
fn a_bench_past_a_grant_has_no_move() {
    let mut bench = at_rest(PROFILE);
    ORDER.iter().for_each(|line| allow(&mut bench, line));
    for (held, owed) in [(3, 0), (0, 3), (3, 3)] {
        let mut past = bench.clone();
        past.forge_holding(4, 2, held);
        past.forge_owing(5, 2, owed);
        assert_eq!(press(&mut past.clone()), told(0, None));
        assert_eq!(past.make_move(), None);
    }
    bench.forge_holding(4, 2, 2);
    bench.forge_owing(5, 2, 2);
    assert!(press(&mut bench).moves > 0);
}

// Random lists

/// Lists of all lengths, by keys with presses among them and without. Each press and each move is
/// checked by the trial; then all presses together are within the bound, and no message is in hand.
#[test]
fn random_lists_come_to_rest_within_the_bound() {
    let mut tally = Tally::default();
    let plain = Player::new(22, Lengths::Any).without_runs();
    for mut player in [Player::new(21, Lengths::Any), Player::new(23, Lengths::Short), plain] {
        for _ in 0..400 {
            let length = player.list_length(150);
            let mut trial = Trial::begin(&player.begin(), &mut tally).unwrap();
            let mut played = Ok(());
            while played.is_ok() && trial.events.len() < length {
                let call = player.next_call(&trial.bench);
                played = trial.step(call, &mut tally).map(drop);
            }
            if let Err(fault) = played.and_then(|()| trial.come_to_rest(&mut tally)) {
                panic!("{fault}\n{}", trial.lines());
            }
        }
    }
    assert_eq!(tally.rests, 1200);
    assert_eq!(tally.presses.gaps(), Vec::<String>::new());
}

/// A press anywhere in a list leaves what the moves made one by one leave, and tells of them.
#[test]
fn a_press_is_its_moves() {
    let mut player = Player::new(24, Lengths::Any);
    let mut random = Random::new(25);
    for _ in 0..300 {
        let mut bench = fresh(&player.begin());
        for _ in 0..random.below(120) {
            let call = player.next_call(&bench);
            bench.play(&call);
        }
        let (mut one_by_one, mut moves) = (bench.clone(), Vec::new());
        let told = press(&mut bench);
        while moves.len() < told.moves {
            let call = MOVES.into_iter().find(|call| one_by_one.clone().play(call).taken()).unwrap();
            let outcome = one_by_one.play(&call);
            moves.push(Event { call, outcome });
        }
        assert_eq!(bench, one_by_one);
        check_told(&told, &moves, &bench).unwrap();
    }
}

// Faults that must be noticed

/// A list that ends with a press of four moves: the last of them hands a message out.
fn pressed() -> (Bench, Observer, Vec<Event>, Outcome) {
    let mut bench = fresh(UNLIMITED);
    let mut events = played(&mut bench, &opening(1));
    events.extend(played(&mut bench, &[Call::Send { conn: 2, message: vec![1, 2, 3, 4, 5] }]));
    let (mut one_by_one, press) = (bench.clone(), press(&mut bench));
    let moves: Vec<Event> = (0..press.moves).map(|_| one_by_one.make_move().unwrap()).collect();
    let observer = observed(&[events, moves.clone()].concat()).unwrap();
    (bench, observer, moves, press)
}

#[test]
fn a_press_that_tells_something_else_is_noticed() {
    let (bench, _, moves, press) = pressed();
    check_told(&press, &moves, &bench).unwrap();
    let other = [
        Outcome { moves: press.moves - 1, ..press.clone() },
        Outcome { moves: press.moves + 1, ..press.clone() },
        Outcome { drop: true, ..press.clone() },
        Outcome { rfu: 4, ..press.clone() },
        Outcome { message: None, ..press.clone() },
        Outcome { message: Some(vec![1]), ..press.clone() },
        Outcome { up: vec![vec![2, 0, 0]], ..press.clone() },
    ];
    for told in other {
        assert!(check_told(&told, &moves, &bench).is_err(), "{told:?}");
    }
}

/// One that goes on after a message, and one that stops before any.
#[test]
fn a_press_of_too_many_or_too_few_moves_is_noticed() {
    let (mut bench, _, mut moves, press) = pressed();
    moves.push(bench.make_move().unwrap());
    let further = Outcome { moves: moves.len(), ..press.clone() };
    assert_eq!(moves.last().unwrap().outcome.message, press.message);
    assert!(check_told(&further, &moves, &bench).is_err());
    let mut early = loopbacks(UNLIMITED, 1);
    taken(early.send(2, &[1, 2, 3, 4, 5]));
    let made = early.make_move().unwrap();
    assert!(check_told(&told(1, None), &[made], &early).is_err());
    assert!(check_told(&told(0, None), &[], &early).is_err());
}

#[test]
fn a_message_left_anywhere_is_noticed() {
    let (mut bench, observer, _, _) = pressed();
    // it has been handed out at the controller, and is on its way back
    assert!(check_silence(&observer, &bench).unwrap_err().contains("not handed out"));
    let mut events = vec![Event { call: Call::Up, outcome: taken(bench.up()) }];
    while let Some(made) = bench.make_move() {
        events.push(made);
    }
    let mut observer = observer;
    events.iter().for_each(|event| observer.see(event).unwrap());
    check_silence(&observer, &bench).unwrap();
    let mut in_hand = bench.clone();
    in_hand.forge_in_hand(2, &[1], 0);
    assert!(check_silence(&observer, &in_hand).unwrap_err().contains("send on 2"));
    let mut spoken = bench.clone();
    spoken.forge_endpoint_message(&[1], 0);
    assert!(check_silence(&observer, &spoken).unwrap_err().contains("reply 0"));
    let mut full_wire = bench.clone();
    fill_down(&mut full_wire, full());
    assert!(check_silence(&observer, &full_wire).unwrap_err().contains("push on 2 answers 4"));
}

#[test]
fn the_observer_sees_moves_and_no_press() {
    let (_, mut observer, _, press) = pressed();
    let event = Event { call: Call::Run, outcome: press };
    assert!(observer.see(&event).unwrap_err().contains("by its moves"));
}

/// A press whose moves the account does not know of.
#[test]
fn the_trial_notices_a_press_beside_the_account() {
    let mut tally = Tally::default();
    let mut trial = Trial::begin(PROFILE, &mut tally).unwrap();
    for call in opening(1) {
        trial.step(call, &mut tally).unwrap();
    }
    trial.bench.forge_in_hand(2, &[1, 2, 3], 0);
    assert!(trial.step(Call::Run, &mut tally).unwrap_err().contains("nothing in hand"));
}
