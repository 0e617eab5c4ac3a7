//! The observer's account on random lists, that the trial notices credits past a grant,
//! and the observer faults.

mod common;
use common::*;
use exam_bench::bench::Bench;
use exam_bench::call::{Call, Outcome};
use exam_bench::controller::Rf;
use exam_bench::observer::{Event, Observer};
use exam_bench::player::{Lengths, Player};
use exam_bench::trial::{check_reports, Tally, Trial};
use std::collections::BTreeSet;

/// Plays lists and lets `watch` look at each call's event and the bench after it.
fn play(seed: u64, calls: u64, lengths: Lengths, mut watch: impl FnMut(&Event, &Bench)) -> Tally {
    let mut tally = Tally::default();
    let mut player = Player::new(seed, lengths);
    while tally.calls < calls {
        let length = player.list_length(300);
        let mut trial = Trial::begin(&player.begin(), &mut tally).unwrap();
        while trial.events.len() < length {
            let call = player.next_call(&trial.bench);
            if let Err(fault) = trial.step(call, &mut tally) {
                panic!("{fault}\n{}", trial.lines());
            }
            watch(trial.events.last().unwrap(), &trial.bench);
        }
    }
    tally
}

#[test]
fn random_lists_keep_the_account_and_meet_every_call_and_refusal() {
    let tally = play(11, 150_000, Lengths::Any, |_, _| {});
    assert_eq!(tally.never(), Vec::<u8>::new());
    assert_eq!(tally.gaps(), Vec::<String>::new());
    assert!(tally.discards > 0);
    // Most credits come back inside data packets, and yet some in notices.
    assert!(tally.carried() > tally.noticed && tally.noticed > 0);
    // About a third of the commands are sets and gets.
    let commands = tally.taken[asked(0, 0, &[]).index()];
    let share = tally.configs.share(commands);
    assert!((28..=38).contains(&share), "{share} of a hundred");
}

/// Where the send would be taken, 6 and 7, each before the close is answered and after.
#[test]
fn random_lists_meet_15_in_every_place() {
    let mut met = BTreeSet::new();
    play(13, 50_000, Lengths::Short, |event, bench| {
        if let (Call::Send { conn, .. }, 15) = (&event.call, event.outcome.answer) {
            let in_hand = bench.host().connection(*conn).map(|open| open.has_message_in_hand());
            let answered = bench.up_wire().iter().any(|packet| packet[0] >> 5 == 2);
            met.insert((in_hand, answered));
        }
    });
    assert_eq!(met.len(), 6);
}

#[test]
fn random_lists_meet_every_status_and_every_rf_state() {
    let mut statuses = BTreeSet::new();
    let mut states = BTreeSet::new();
    let mut notifications = BTreeSet::new();
    play(12, 150_000, Lengths::Any, |event, bench| {
        for packet in &event.outcome.up {
            match packet[0] >> 5 {
                2 if packet[0] < 0x42 => {
                    statuses.insert((packet[0] & 15, packet[1], packet[3]));
                }
                3 => {
                    notifications.insert((packet[0] & 15, packet[1]));
                }
                _ => {}
            }
        }
        states.insert(match bench.controller().rf() {
            Rf::Idle => 0,
            Rf::Discovery => 1,
            Rf::W4AllDiscoveries => 2,
            Rf::W4HostSelect(None) => 3,
            Rf::W4HostSelect(Some(_)) => 4,
            Rf::PollActive(_) => 5,
            Rf::ListenActive(_) => 6,
            Rf::ListenSleep => 7,
        });
    });
    assert_eq!(states.len(), 8);
    assert_eq!(notifications, BTreeSet::from([(0, 0), (0, 6), (0, 7), (1, 3), (1, 5), (1, 6)]));
    let expected: [(u8, u8, &[u8]); 9] = [
        (0, 0, &[0, 5]),
        (0, 1, &[0, 5, 6]),
        (0, 2, &[0, 5, 6, 9]),
        (0, 3, &[0, 5, 6, 9, 0x0A]),
        (0, 4, &[0, 1, 5, 6]),
        (0, 5, &[0, 1, 5, 6]),
        (1, 3, &[0, 1, 5, 6, 0xA0]),
        (1, 4, &[0, 1, 5, 6]),
        (1, 6, &[0, 1, 5, 6]),
    ];
    for (gid, oid, status) in expected {
        let met: Vec<u8> =
            statuses.iter().filter(|met| (met.0, met.1) == (gid, oid)).map(|met| met.2).collect();
        assert_eq!(met, status, "GID {gid} OID {oid}");
    }
}

#[test]
fn the_player_deals_the_same_lists_from_the_same_seed() {
    let mut runs = [7, 7, 8].map(|seed| {
        let mut calls = Vec::new();
        play(seed, 2_000, Lengths::Short, |event, _| calls.push(event.call.clone()));
        calls
    });
    assert_ne!(runs[1], runs[2]);
    runs[1].truncate(runs[0].len());
    assert_eq!(runs[0], runs[1]);
}

#[test]
fn every_call_of_short_lists_fits_a_sheet_line() {
    play(9, 30_000, Lengths::Short, |event, _| {
        let line = exam_bench::sheet::write_call(&event.call);
        assert_eq!(exam_bench::sheet::read_line(line.as_bytes()), Some(event.call.clone()));
    });
}

// Credits past a grant, which the trial must notice. No list of calls comes to that, so
// the benches are made by hand.

/// Whether the trial finds credits past a grant in this call. What else it finds in a
/// bench that it has not seen from fresh on does not count.
fn passes_grant(bench: &Bench, call: Call) -> bool {
    let mut trial = Trial { bench: bench.clone(), observer: Observer::new(), events: Vec::new() };
    let fault = trial.step(call, &mut Tally::default()).err();
    assert!(trial.events[0].outcome.taken());
    fault.is_some_and(|fault| fault.contains("past the grant"))
}

#[test]
fn credits_past_the_grant_at_the_host_are_noticed() {
    for (read, credits) in [
        ("60 06 03 01 02 05", 5),
        ("60 06 07 03 00 08 02 01 05 08", 1),
        ("70 06 02 01 02 | 60 06 01 05", 5),
        ("02 03 00", 3),
        ("12 FD 01 AA", 1),
    ] {
        for grant in [8, 200, 254] {
            for held in [0, grant - credits, grant - credits + 1, grant] {
                let mut bench = ready(PROFILE);
                bench.forge_holding(2, grant, held);
                packets(read).iter().for_each(|packet| bench.forge_up(packet));
                while bench.up_wire().len() > 1 {
                    assert!(!passes_grant(&bench, Call::Up), "not whole yet");
                    taken(bench.up());
                }
                let past = held > grant - credits;
                assert_eq!(passes_grant(&bench, Call::Up), past, "{read}, {held} of {grant}");
            }
        }
    }
}

/// On 2 the packet that goes up brings them within the grant again.
#[test]
fn credits_past_the_grant_at_the_controller_are_noticed_before_any_are_carried() {
    for conn in [0, 2] {
        for grant in [1, 2, 8, 254] {
            for owed in [0, grant - 1, grant] {
                let mut bench = ready(PROFILE);
                bench.forge_owing(conn, grant, owed);
                bench.forge_stored(conn, &[conn, 0, 0]);
                assert_eq!(passes_grant(&bench, Call::Consume(conn)), owed == grant, "{owed} of {grant}");
            }
        }
    }
}

#[test]
fn without_flow_control_no_credits_pass_a_grant() {
    for conn in [0, 2] {
        for count in [0, 254, 255] {
            let mut bench = ready(PROFILE);
            bench.forge_holding(conn, 255, count);
            bench.forge_owing(conn, 255, count);
            bench.forge_stored(conn, &[conn, 0, 0]);
            assert!(!passes_grant(&bench, Call::Consume(conn)));
            for packet in [&[0x60, 0x06, 0x03, 1, conn, 8][..], &[conn, 3, 0]] {
                bench.forge_up(packet);
                assert!(!passes_grant(&bench, Call::Up));
                taken(bench.up());
            }
        }
    }
}

// Faults that the observer must notice.

/// A course with a message of two packets to a loopback and back, one to the endpoint,
/// and one to the loopback: at the end a packet with a credit and a notice are on the
/// up wire.
fn course() -> (Vec<Event>, Bench) {
    let mut bench = fresh(PROFILE);
    let traffic = [
        Call::Send { conn: 2, message: vec![1, 2, 3, 4, 5] },
        Call::Push(2),
        Call::Push(2),
        Call::Down,
        Call::Down,
        Call::Consume(2),
        Call::Consume(2),
        Call::Up,
        Call::Up,
        Call::Send { conn: 0, message: vec![9] },
        Call::Push(0),
        Call::Down,
        Call::Consume(0),
        Call::Send { conn: 2, message: vec![7] },
        Call::Push(2),
        Call::Down,
        Call::Consume(2),
        Call::Report(2),
        Call::Credit,
    ];
    let events = played(&mut bench, &[&opening(1)[..], &activating(), &traffic].concat());
    (events, bench)
}

/// What the observer and the checker say of the course with one event changed.
fn verdict(change: impl FnOnce(&mut Vec<Event>)) -> Result<(), String> {
    let (mut events, bench) = course();
    change(&mut events);
    check_reports(&observed(&events)?, &bench)
}

#[test]
fn an_unchanged_course_passes() {
    verdict(|_| {}).unwrap();
}

#[test]
fn a_message_changed_on_its_way_is_noticed() {
    for name in ["consume", "up"] {
        let fault = verdict(|events| {
            let place = place_of(events, name);
            events[place].outcome.message.as_mut().unwrap()[0] ^= 1;
        });
        assert!(fault.unwrap_err().contains("is not the one taken"));
    }
}

#[test]
fn a_message_handed_out_twice_is_noticed() {
    let fault = verdict(|events| {
        let place = place_of(events, "up");
        let again = events[place].clone();
        events.push(again);
    });
    assert!(fault.is_err());
}

#[test]
fn a_wrong_drop_flag_is_noticed() {
    let fault = verdict(|events| events[13].outcome.drop = true);
    assert!(fault.unwrap_err().contains("drop flag"));
}

#[test]
fn a_credit_too_many_or_too_few_is_noticed() {
    for credits in [0, 2] {
        let fault = verdict(|events| {
            let place = place_of(events, "credit");
            events[place].outcome.up[0][5] = credits;
        });
        assert!(fault.is_err());
    }
    assert!(verdict(|events| events.truncate(events.len() - 1)).is_err());
}

#[test]
fn a_credit_too_many_or_too_few_inside_data_is_noticed() {
    for credits in [0, 2, 3] {
        let fault = verdict(|events| {
            let place = place_of(events, "consume");
            assert_eq!(std::mem::replace(&mut events[place].outcome.up[0][1], credits), 1);
        });
        assert!(fault.is_err());
    }
}

#[test]
fn credits_going_down_are_noticed() {
    let fault = verdict(|events| {
        let place = place_of(events, "push");
        events[place].outcome.down[0][1] = 1;
    });
    assert!(fault.unwrap_err().contains("credits going down"));
}

#[test]
fn credits_without_flow_control_are_noticed() {
    let traffic = [Call::Send { conn: 2, message: vec![] }, Call::Push(2), Call::Down, Call::Consume(2)];
    let mut events = played(&mut fresh(UNLIMITED), &[&opening(1)[..], &traffic].concat());
    observed(&events).unwrap();
    let place = place_of(&events, "consume");
    events[place].outcome.up[0][1] = 1;
    assert!(observed(&events).unwrap_err().contains("nothing is owed"));
}

#[test]
fn a_grant_other_than_the_one_reported_is_noticed() {
    assert!(verdict(|events| events[8].outcome.up[0][5] = 3).is_err());
}

#[test]
fn a_wrong_report_is_noticed() {
    let fault = verdict(|events| {
        let place = place_of(events, "report");
        events[place].outcome.message = Some(vec![0, 0, 0, 1, 1]);
    });
    assert!(fault.unwrap_err().contains("report of 2"));
}

#[test]
fn a_push_that_did_not_happen_is_noticed() {
    let fault = verdict(|events| {
        let outcome = Outcome { down: packets("02 00 00"), ..Outcome::default() };
        events.push(Event { call: Call::Push(2), outcome });
    });
    assert!(fault.is_err());
}

#[test]
fn a_refusal_that_did_something_is_noticed() {
    let fault = verdict(|events| {
        let place = place_of(events, "consume");
        events[place].outcome.answer = 8;
    });
    assert!(fault.unwrap_err().contains("refused"));
}

/// 1 and 2 are about octets, 13 and 16 are not on the card.
#[test]
fn an_answer_that_no_call_gives_here_is_noticed() {
    for answer in 1..=255 {
        let outcome = Outcome { answer, ..Outcome::default() };
        let given = (3..=15).contains(&answer) && answer != 13;
        let verdict = verdict(|events| events.push(Event { call: Call::Credit, outcome }));
        assert_eq!(verdict.is_ok(), given, "{answer}");
    }
}
