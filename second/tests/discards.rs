//! Messages in hand at the host, in the observer's account: what a close or reset
//! response discards was sent before its command.

mod common;
use common::*;
use exam_bench::call::{Call, Outcome};
use exam_bench::observer::Event;

/// What comes of these calls with 2 and 3 open.
fn history(calls: &[Call]) -> Vec<Event> {
    played(&mut fresh(PROFILE), &[&opening(2), calls].concat())
}

/// A message in hand on 2, and a command that is taken, answered and heard.
fn sent_before(command: Call) -> Vec<Event> {
    history(&[send(2, 9), command, Call::Down, Call::Up])
}

/// The same, but the send comes so many calls later.
fn sent_later(command: Call, calls: usize) -> Vec<Event> {
    let mut events = sent_before(command);
    let place = place_of(&events, "send");
    let send = events.remove(place);
    events.insert(place + calls, send);
    events
}

fn discards(events: &[Event]) -> u64 {
    observed(events).unwrap().discards()
}

fn closes() -> [Call; 3] {
    [asked(0, 5, &[2]), asked(0, 0, &[0]), asked(0, 0, &[1])]
}

// Discards

#[test]
fn a_message_sent_before_the_command_is_discarded() {
    for command in closes() {
        assert_eq!(discards(&sent_before(command)), 1);
    }
}

/// No bench takes such a send: the history is made up.
#[test]
fn a_discarded_message_sent_after_the_command_is_noticed() {
    for command in closes() {
        for calls in [1, 2] {
            let fault = observed(&sent_later(command.clone(), calls)).unwrap_err();
            assert!(fault.contains("discards a message that was sent after the command"), "{fault}");
        }
    }
}

#[test]
fn a_response_that_closes_nothing_discards_nothing() {
    for command in [asked(0, 5, &[5]), asked(0, 5, &[]), asked(0, 0, &[7]), asked(0, 4, &[1, 0])] {
        for calls in 0..=3 {
            assert_eq!(discards(&sent_later(command.clone(), calls)), 0);
        }
    }
}

#[test]
fn a_message_is_discarded_until_its_last_segment_is_pushed() {
    for (pushes, discarded) in [(0, 1), (1, 1), (2, 0)] {
        let mut calls = vec![send(2, 8)];
        calls.extend(vec![Call::Push(2); pushes]);
        calls.extend(vec![Call::Down; pushes]);
        calls.extend([asked(0, 5, &[2]), Call::Down, Call::Up]);
        assert_eq!(discards(&history(&calls)), discarded);
    }
}

#[test]
fn a_close_discards_on_its_connection_alone_and_a_reset_on_all() {
    for (command, discarded) in [(asked(0, 5, &[2]), 1), (asked(0, 5, &[3]), 1), (asked(0, 0, &[0]), 2)] {
        let calls = [send(2, 0), send(3, 9), command, Call::Down, Call::Up];
        assert_eq!(discards(&history(&calls)), discarded);
    }
}

#[test]
fn rf_deactivate_ntf_is_no_response() {
    let deactivated = [asked(1, 6, &[0]), send(0, 9), Call::Down, Call::Up, Call::Up];
    assert_eq!(discards(&history(&[&activating()[..], &deactivated].concat())), 0);
}

#[test]
fn discards_are_counted_through_power_and_fresh() {
    let round = [&opening(2)[..], &[send(2, 9), asked(0, 5, &[2]), Call::Down, Call::Up]].concat();
    for end in [Call::Power, Call::Fresh(PROFILE.to_vec())] {
        let calls = [&round[..], &[end], &round].concat();
        assert_eq!(discards(&played(&mut fresh(PROFILE), &calls)), 2);
    }
}

// Sends and pushes

#[test]
fn a_second_message_in_hand_is_noticed() {
    let mut events = history(&[send(2, 0)]);
    events.push(events[place_of(&events, "send")].clone());
    assert!(observed(&events).unwrap_err().contains("another is in hand"));
}

#[test]
fn a_message_on_a_connection_not_open_at_the_host_is_noticed() {
    let mut events = history(&[]);
    events.push(Event { call: send(4, 1), outcome: Outcome::default() });
    assert!(observed(&events).unwrap_err().contains("not open at the host"));
}

#[test]
fn a_push_with_nothing_in_hand_is_noticed() {
    let mut events = history(&[send(2, 4), Call::Push(2)]);
    events.push(events[place_of(&events, "push")].clone());
    assert!(observed(&events).unwrap_err().contains("nothing in hand"));
}

#[test]
fn a_wrong_pbf_is_noticed() {
    for pushes in [1, 2] {
        let mut events = history(&[vec![send(2, 8)], vec![Call::Push(2); pushes]].concat());
        observed(&events).unwrap();
        let place = place_of(&events, "push");
        events[place].outcome.down[0][0] ^= 0x10;
        assert!(observed(&events).unwrap_err().contains("PBF"));
    }
}
