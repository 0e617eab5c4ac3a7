//! The moves of run, to the move, through C: the examples of the second implementation, benches
//! made by hand, and random lists.

// the examples, and the calls that they begin with
#[path = "../../second/tests/common/mod.rs"]
mod common;

use common::worked::{examples, not_clear, Worked};
use common::PROFILE;
use compare::group::Group;
use compare::lists::Lists;
use compare::made::{controller_side, host_side, still, Made, ENDPOINT};
use compare::press::{is_clear, BenchCopy};
use exam_bench::call::{Call, Outcome};
use exam_bench::trial::exact::check_presses;
use exam_bench::trial::{Tally, Trial};

/// Plays a list whose calls are all taken, on both benches.
fn play(lists: &mut Lists, profile: &[u8], calls: &[Call]) {
    lists.begin(profile).unwrap();
    for call in calls {
        lists.step(call).unwrap_or_else(|fault| panic!("{fault}\n{}", lists.lines.join("\n")));
        assert!(lists.both.outcome.as_ref().is_some_and(Outcome::taken), "{call:?}");
    }
}

fn clear(lists: &Lists) -> bool {
    is_clear(lists.both.lent.octets())
}

/// What is said of presses through C on a copy.
fn verdict(foretold: usize, lists: &Lists) -> Result<(), String> {
    let mut copy = BenchCopy::of(lists.both.lent.octets());
    check_presses(foretold, || copy.told(&Call::Run).1)
}

// Benches that calls made

#[test]
fn the_examples_take_their_moves() {
    let mut lists = Lists::new(51);
    for example in examples() {
        play(&mut lists, example.profile, &example.calls);
        assert!(clear(&lists), "{}", example.name);
        assert_eq!(verdict(example.moves, &lists), Ok(()), "{}", example.name);
        for other in [example.moves + 1, example.moves + 2, example.moves.saturating_sub(1)] {
            assert_eq!(verdict(other, &lists).is_ok(), other == example.moves, "{}", example.name);
        }
        lists.rest().unwrap();
        assert!(clear(&lists), "{}", example.name);
    }
}

/// On their way both benches are clear at the same places, with the same segments in hand.
#[test]
fn the_same_benches_are_clear_to_both() {
    let (mut lists, mut tally) = (Lists::new(52), Tally::default());
    for Worked { profile, calls, .. } in examples() {
        play(&mut lists, profile, &calls);
        let mut trial = Trial::begin(profile, &mut tally).unwrap();
        for call in calls {
            trial.step(call, &mut tally).unwrap();
        }
    }
    assert_eq!(lists.both.tally.exact, tally.exact);
    assert_eq!(tally.exact.gaps(), Vec::<String>::new());
}

#[test]
fn a_bench_with_something_under_way_is_not_clear() {
    let mut lists = Lists::new(53);
    for (in_the_way, calls) in not_clear() {
        play(&mut lists, PROFILE, &calls);
        assert!(!clear(&lists), "{in_the_way}");
        lists.rest().unwrap();
        assert!(clear(&lists), "{in_the_way}");
    }
}

// Benches made by hand

/// The grant of a connection with none of it spent.
fn granted(made: Made, place: usize, grant: u8) -> Made {
    made.with(host_side(place) + 2, &[grant, grant]).with(controller_side(place) + 1, &[grant, 0])
}

/// So many octets in hand, of which some are gone.
fn in_hand(octets: u16, gone: u16) -> Vec<u8> {
    [&[1][..], &octets.to_be_bytes(), &gone.to_be_bytes()].concat()
}

/// Octets in hand and octets gone, with the segments that are left: of the host at payload 4, and of
/// the endpoint.
const MESSAGES: [[(u16, u16, usize); 2]; 4] =
    [[(0, 0, 1), (0, 0, 1)], [(1, 0, 1), (255, 0, 1)], [(9, 0, 3), (600, 0, 3)], [(9, 4, 2), (600, 255, 2)]];
/// Grants of 0 and of the loopbacks: one credit, many, no flow control.
const GRANTS: [(u8, u8); 9] =
    [(1, 1), (1, 8), (1, 255), (254, 1), (254, 8), (254, 255), (255, 1), (255, 8), (255, 255)];

/// Every choice of connections with a message in hand, and of the endpoint's: empty ones too, from
/// the first segment on and from the second.
#[test]
fn every_choice_of_messages() {
    let mut group = Group::new("every choice of messages");
    for (on_0, on_loopbacks) in GRANTS {
        let open = |made, place| granted(made, place, if place == 0 { on_0 } else { on_loopbacks });
        let clear = (0..5).fold(still(), open);
        for [(octets, gone, segments), (said, replied, replies)] in MESSAGES {
            for set in 0..1 << 6 {
                let chosen = |place: usize| set >> place & 1;
                let mut bench = clear.clone();
                for place in (0..5).filter(|place| chosen(*place) == 1) {
                    bench = bench.with(host_side(place) + 4, &in_hand(octets, gone));
                }
                if chosen(5) == 1 {
                    bench = bench.with(ENDPOINT, &in_hand(said, replied));
                }
                let each = if on_0 == 255 { 3 } else { 5 };
                let loopbacks: usize = (1..5).map(chosen).sum();
                let due = segments * (each * chosen(0) + 4 * loopbacks) + 2 * replies * chosen(5);
                assert_eq!(group.rest(&bench), due, "{set:06b} of {octets}, {said}; {on_0}, {on_loopbacks}");
            }
        }
    }
    // a loopback's message is handed out twice; after the only message on 0 its credit goes back
    group.end(2_304, &[("message", 11_520), ("moves", 24), ("none", 2_304)]);
}

// Random lists

#[test]
fn random_lists_meet_every_kind() {
    let mut lists = Lists::new(54);
    for _ in 0..120 {
        let played = lists.play(300).and_then(|()| lists.rest());
        assert_eq!(played, Ok(()), "{}", lists.lines.join("\n"));
    }
    assert_eq!(lists.both.tally.exact.gaps(), Vec::<String>::new());
}
