//! The moves of run, to the move: worked examples, when it is asked, that a wrong number is noticed,
//! and the account of the endpoint's message, from which it is foretold.

mod common;
use common::worked::{examples, not_clear, Segments, Worked};
use common::*;
use exam_bench::bench::Bench;
use exam_bench::call::{Call, Outcome};
use exam_bench::observer::Event;
use exam_bench::trial::exact::{check_presses, exactly, is_clear, segments};
use exam_bench::trial::{Tally, Trial};

/// The moves for each kind of segment.
const EACH: Segments = [4, 5, 3, 2];

fn moves_of(segments: Segments, each: Segments) -> usize {
    segments.iter().zip(each).map(|(segments, moves)| segments * moves).sum()
}

/// A list whose calls are all taken. The trial looks at each bench on the way, too.
fn listed(profile: &[u8], calls: &[Call], tally: &mut Tally) -> Trial {
    let mut trial = Trial::begin(profile, tally).unwrap();
    for call in calls {
        let outcome = &trial.step(call.clone(), tally).unwrap().outcome;
        assert!(outcome.taken(), "{call:?}: {outcome:?}");
    }
    trial
}

fn played_out(example: &Worked) -> Trial {
    listed(example.profile, &example.calls, &mut Tally::default())
}

/// What is said of presses on a copy of the bench.
fn verdict(foretold: usize, bench: &Bench) -> Result<(), String> {
    let mut copy = bench.clone();
    check_presses(foretold, || press(&mut copy).moves)
}

// Worked examples

#[test]
fn the_examples_take_their_moves() {
    for example in examples() {
        let Trial { mut bench, observer, .. } = played_out(&example);
        assert!(is_clear(&bench), "{}", example.name);
        assert_eq!(segments(&observer), example.segments, "{}", example.name);
        assert_eq!(exactly(&observer), example.moves, "{}", example.name);
        assert_eq!(moves_of(example.segments, EACH), example.moves, "{}", example.name);
        verdict(example.moves, &bench).unwrap();
        assert_eq!(moves_to_rest(&mut bench), example.moves, "{}", example.name);
        assert!(is_clear(&bench), "{}", example.name);
    }
}

/// Each press but the last makes a move: as many presses as moves suffice, whatever ends them.
#[test]
fn as_many_presses_as_moves_suffice() {
    for example in examples() {
        let mut bench = played_out(&example).bench;
        for _ in 0..example.moves {
            press(&mut bench);
        }
        assert_eq!(press(&mut bench).moves, 0, "{}", example.name);
    }
}

// Clear benches

#[test]
fn a_bench_is_clear_before_any_connection_opens() {
    for bench in [fresh(PROFILE), ready(PROFILE), discovery(PROFILE), listen_sleep(UNLIKE)] {
        assert!(is_clear(&bench));
    }
}

/// Pressed to rest, each of them is clear.
#[test]
fn a_bench_with_something_under_way_is_not_clear() {
    for (in_the_way, calls) in not_clear() {
        let mut bench = listed(PROFILE, &calls, &mut Tally::default()).bench;
        assert!(!is_clear(&bench), "{in_the_way}");
        moves_to_rest(&mut bench);
        assert!(is_clear(&bench), "{in_the_way}");
    }
}

/// By what no list of calls makes, a loopback that owes among them.
#[test]
fn one_thing_in_the_way_is_enough() {
    let rest = listed(PROFILE, &[opening(4), activating()].concat(), &mut Tally::default()).bench;
    let clear_with = |change: &dyn Fn(&mut Bench)| {
        let mut bench = rest.clone();
        change(&mut bench);
        is_clear(&bench)
    };
    assert!(clear_with(&|_| {}));
    assert!(!clear_with(&|bench| bench.forge_down(&DROPPED)));
    assert!(!clear_with(&|bench| bench.forge_up(&DROPPED)));
    for (place, conn) in [0, 2, 3, 4, 5].into_iter().enumerate() {
        assert!(!clear_with(&|bench| bench.forge_stored(conn, &DROPPED)), "{conn}");
        assert!(!clear_with(&|bench| bench.controller.connections[place].as_mut().unwrap().owed = 1));
        // what is in hand is in nobody's way
        assert!(clear_with(&|bench| bench.forge_in_hand(conn, &[1], 0)), "{conn}");
    }
    assert!(clear_with(&|bench| bench.forge_endpoint_message(&[1], 0)));
}

// Wrong numbers

/// What another rule makes of an example.
type Rule = fn(&Worked) -> usize;

const WRONG: [(&str, Rule); 11] = [
    ("4 moves on 0 with flow control", |of| moves_of(of.segments, [4, 4, 3, 2])),
    ("3 moves on 0 with flow control", |of| moves_of(of.segments, [4, 3, 3, 2])),
    ("5 moves on 0 without flow control", |of| moves_of(of.segments, [4, 5, 5, 2])),
    ("a notice for a loopback's segment", |of| moves_of(of.segments, [5, 5, 3, 2])),
    ("a loopback's segment that does not come back", |of| moves_of(of.segments, [3, 5, 3, 2])),
    ("a reply's segment counted once", |of| moves_of(of.segments, [4, 5, 3, 1])),
    ("a closing discards no reply", |of| of.moves + 2 * of.discarded),
    ("an empty message on a loopback has no segment", |of| of.moves - 4 * of.empty[0]),
    ("on 0 with flow control", |of| of.moves - 5 * of.empty[1]),
    ("on 0 without flow control", |of| of.moves - 3 * of.empty[2]),
    ("an empty reply", |of| of.moves - 2 * of.empty[3]),
];

#[test]
fn wrong_rules_are_noticed() {
    let played = |example: Worked| (played_out(&example).bench, example);
    let examples: Vec<(Bench, Worked)> = examples().into_iter().map(played).collect();
    for (name, rule) in WRONG {
        let mut noticed = 0;
        for (bench, example) in examples.iter().filter(|(_, example)| rule(example) != example.moves) {
            let fault = verdict(rule(example), bench).unwrap_err();
            assert!(fault.contains("were foretold"), "{name}, {}: {fault}", example.name);
            noticed += 1;
        }
        assert!(noticed > 0, "{name}");
    }
}

#[test]
fn a_move_too_many_or_too_few_is_noticed() {
    for example in examples() {
        let bench = played_out(&example).bench;
        assert!(verdict(example.moves + 1, &bench).unwrap_err().contains("were foretold"));
        if example.moves > 0 {
            assert!(verdict(example.moves - 1, &bench).is_err());
        }
    }
    // a press that never comes to an end
    assert!(check_presses(7, || 1).unwrap_err().contains("made 8 moves, where 7"));
}

// The trial

/// The trial's fault in a list with all connections open, where the bench is changed by no call, and
/// then a segment is sent on 3.
fn fault_after(calls: &[Call], change: impl FnOnce(&mut Bench)) -> String {
    let mut tally = Tally::default();
    let mut trial = listed(PROFILE, &[&opening(4), &activating(), calls].concat(), &mut tally);
    change(&mut trial.bench);
    trial.step(send(3, 3), &mut tally).err().unwrap_or_default()
}

#[test]
fn the_trial_notices_moves_beside_the_account() {
    assert_eq!(fault_after(&[send(2, 9), speak(9)], |_| {}), "");
    let unseen = fault_after(&[], |bench| bench.forge_in_hand(2, &[1; 9], 0));
    assert!(unseen.contains("made 16 moves, where 4"), "{unseen}");
    let pushed = fault_after(&[send(2, 9)], |bench| bench.forge_in_hand(2, &[1; 9], 4));
    assert!(pushed.contains("made 12 moves, where 16"), "{pushed}");
    let lost = fault_after(&[send(0, 9)], |bench| bench.host.connections[0].as_mut().unwrap().in_hand = None);
    assert!(lost.contains("made 4 moves, where 19"), "{lost}");
    let replied = fault_after(&[speak(256)], |bench| bench.forge_endpoint_message(&[1; 256], 255));
    assert!(replied.contains("made 6 moves, where 8"), "{replied}");
}

#[test]
fn the_trial_notices_replies_beside_the_account() {
    let unseen = fault_after(&[], |bench| bench.forge_endpoint_message(&[], 0));
    assert!(unseen.contains("reply answers 0 with 0"), "{unseen}");
    let lost = fault_after(&[speak(256)], |bench| bench.controller.endpoint_message = None);
    assert!(lost.contains("reply answers 8 with 2"), "{lost}");
    // a full wire says nothing of it
    let full_wire = fault_after(&[speak(256)], |bench| fill_up(bench, full()));
    assert_eq!(full_wire, "");
}

/// Credits past a grant, with which no move is made. No list of calls comes to that.
#[test]
fn the_trial_notices_a_bench_at_rest_that_is_not_clear() {
    let mut tally = Tally::default();
    let mut trial = listed(PROFILE, &opening(1), &mut tally);
    trial.come_to_rest(&mut tally).unwrap();
    trial.bench.forge_owing(2, 2, 3);
    assert!(trial.come_to_rest(&mut tally).unwrap_err().contains("something is under way"));
}

/// What was never met is named, where it was asked at all.
#[test]
fn kinds_never_met_are_gaps() {
    let mut tally = Tally::default();
    assert_eq!(tally.exact.gaps(), Vec::<String>::new());
    listed(PROFILE, &[], &mut tally);
    let all = ["loopback", "flow-control", "no-flow-control", "reply", "together"];
    assert_eq!(tally.exact.gaps(), all.map(|kind| format!("exact:{kind}")));
    listed(PROFILE, &[opening(1), activating(), vec![send(2, 9), speak(0)]].concat(), &mut tally);
    assert_eq!(tally.exact.gaps(), ["exact:flow-control", "exact:no-flow-control"]);
    let met = "exact-asked=19 exact-clear=9 exact-still=7 exact-together=1 exact-loopback=2 \
               exact-flow-control=0 exact-no-flow-control=0 exact-reply=1 segments-loopback=6 \
               segments-flow-control=0 segments-no-flow-control=0 segments-reply=1";
    assert!(tally.fields().contains(met), "{}", tally.fields());
}

// The endpoint's message in the account

/// What comes of these calls with connection 0 open.
fn history(calls: &[Call]) -> Vec<Event> {
    played(&mut fresh(PROFILE), &[&opening(1), &activating(), calls].concat())
}

fn replies_left(calls: &[Call]) -> usize {
    observed(&history(calls)).unwrap().reply_segments()
}

#[test]
fn each_reply_takes_one_segment() {
    for (octets, segments) in [(0, 1), (1, 1), (255, 1), (256, 2), (510, 2), (511, 3), (1020, 4), (1024, 5)] {
        for replies in 0..=segments {
            let calls = [vec![speak(octets)], vec![Call::Reply; replies]].concat();
            assert_eq!(replies_left(&calls), segments - replies, "{octets} octets");
        }
    }
}

/// Closing another connection does not, nor does a command before the controller takes it.
#[test]
fn closing_connection_0_discards_the_endpoints_message() {
    let ways: [(&[Call], usize); 6] = [
        (&[asked(1, 6, &[0])], 2),
        (&[asked(1, 6, &[0]), Call::Down], 0),
        (&[asked(0, 0, &[1]), Call::Down], 0),
        (&[asked(0, 5, &[2]), Call::Down], 2),
        (&[Call::Power], 0),
        (&[Call::Fresh(UNLIKE.to_vec())], 0),
    ];
    for (way, left) in ways {
        assert_eq!(replies_left(&[&[speak(256)], way].concat()), left, "{way:?}");
    }
}

/// The account of these calls and of one event more, which no bench gives.
fn noticed(calls: &[Call], call: Call, outcome: Outcome) -> String {
    let mut events = history(calls);
    events.push(Event { call, outcome });
    observed(&events).unwrap_err()
}

#[test]
fn wrong_replies_are_noticed() {
    let up = |text: &str| Outcome { up: packets(text), ..Outcome::default() };
    let empty = Outcome::default;
    assert!(noticed(&[], Call::Reply, up("00 00 00")).contains("nothing in hand"));
    assert!(noticed(&[speak(0), Call::Reply], Call::Reply, up("00 00 00")).contains("nothing in hand"));
    assert!(noticed(&[speak(0)], Call::Reply, up("10 00 00")).contains("PBF 1 and 0"));
    assert!(noticed(&[speak(256)], Call::Reply, up("00 00 00")).contains("PBF 0 and 1"));
    assert!(noticed(&[speak(0)], Call::Reply, up("02 00 00")).contains("a segment on 0 in"));
    assert!(noticed(&[speak(0)], Call::Reply, empty()).contains("in 0 packets"));
    assert!(noticed(&[speak(0)], speak(1), empty()).contains("another is in hand"));
    let closed = [asked(1, 6, &[0]), Call::Down];
    assert!(noticed(&closed, speak(1), empty()).contains("not open at the controller"));
}

/// Refusal 8, which says that nothing is left, where something is.
#[test]
fn a_refusal_with_segments_left_is_noticed() {
    let nothing = || Outcome { answer: 8, ..Outcome::default() };
    assert!(noticed(&[speak(256)], Call::Reply, nothing()).contains("reply finds nothing to move with 2"));
    assert!(noticed(&[send(2, 9)], Call::Push(2), nothing()).contains("push finds nothing to move with 3"));
    let mut events = history(&[speak(256), send(2, 4), Call::Reply, Call::Reply, Call::Push(2)]);
    events.extend([Call::Reply, Call::Push(2)].map(|call| Event { call, outcome: nothing() }));
    observed(&events).unwrap();
}
