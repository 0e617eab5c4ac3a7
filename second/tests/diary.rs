//! The observer's diary of configuration values: what it takes from a list, and the faults that
//! it must notice.

mod common;
use common::*;
use exam_bench::call::{Call, Outcome};
use exam_bench::config::PARAMETERS;
use exam_bench::observer::Event;

const SET: u8 = 2;
const GET: u8 = 3;

/// A set or a get, or a reset, with down and the ups that read what it put.
fn moved(oid: u8, payload: &[u8]) -> Vec<Call> {
    let ups = if oid == 0 && payload[0] <= 1 { 2 } else { 1 };
    [vec![asked(0, oid, payload), Call::Down], vec![Call::Up; ups]].concat()
}

/// From fresh on: RESET and INIT, and then these commands.
fn course(commands: &[(u8, &[u8])]) -> Vec<Event> {
    let calls: Vec<Call> = commands.iter().flat_map(|(oid, payload)| moved(*oid, payload)).collect();
    let mut bench = fresh(PROFILE);
    let mut events = played(&mut bench, &[Call::Fresh(PROFILE.to_vec())]);
    events.extend(played(&mut bench, &[opening(0), calls].concat()));
    events
}

/// What the observer says of a course with the response to its last command changed.
fn verdict(commands: &[(u8, &[u8])], change: impl FnOnce(&mut Vec<u8>)) -> Result<(), String> {
    let mut events = course(commands);
    observed(&events)?;
    let place = place_of(&events, "down");
    let response = &mut events[place].outcome.up[0];
    change(response);
    response[2] = response.len() as u8 - 3;
    observed(&events[..=place]).map(drop)
}

const SET_08: (u8, &[u8]) = (SET, &[1, 0x08, 1, 1]);
const GET_08: (u8, &[u8]) = (GET, &[1, 0x08]);

#[test]
fn a_value_other_than_the_one_accepted_is_noticed() {
    for commands in [vec![GET_08], vec![SET_08, GET_08], vec![SET_08, (SET, &[1, 0x08, 0]), GET_08]] {
        verdict(&commands, |_| {}).unwrap();
        let fault = verdict(&commands, |response| response[7] ^= 1);
        assert!(fault.unwrap_err().contains("was due"));
    }
}

/// Each parameter, by its default and by a value that was set.
#[test]
fn every_parameter_is_in_the_diary() {
    for parameter in &PARAMETERS {
        let (id, other) = (parameter.id, *parameter.octets[0].end());
        let set = [1, id, 1, other];
        let get = [1, id];
        for commands in [vec![(GET, &get[..])], vec![(SET, &set[..]), (GET, &get[..])]] {
            verdict(&commands, |_| {}).unwrap();
            verdict(&commands, |response| response.push(0)).unwrap_err();
            verdict(&commands, |response| *response.last_mut().unwrap() ^= 4).unwrap_err();
        }
    }
}

#[test]
fn other_ids_another_order_or_another_number_are_noticed() {
    let commands: [(u8, &[u8]); 2] = [(SET, &[1, 0x09, 1, 0]), (GET, &[3, 0x08, 0x09, 0x11])];
    verdict(&commands, |_| {}).unwrap();
    let changes: [fn(&mut Vec<u8>); 5] = [
        |response| response[5] = 0x11,
        |response| response.swap(5, 8),
        |response| response.truncate(11),
        |response| response[4] = 2,
        |response| response.extend([0x08, 1, 0]),
    ];
    for change in changes {
        assert!(verdict(&commands, change).unwrap_err().contains("was due"));
    }
}

/// An OK to what is not known, or is not there, is none; a status other than OK shows nothing.
#[test]
fn an_ok_that_cannot_be_is_noticed() {
    let unknown: (u8, &[u8]) = (GET, &[1, 0x12]);
    verdict(&[unknown], |_| {}).unwrap();
    let ok = |response: &mut Vec<u8>| response[3] = 0;
    assert!(verdict(&[unknown], ok).unwrap_err().contains("not known"));
    let short: (u8, &[u8]) = (GET, &[2, 0x08]);
    verdict(&[short], |_| {}).unwrap();
    assert!(verdict(&[short], ok).unwrap_err().contains("cut short"));
    verdict(&[SET_08, GET_08], |response| response.splice(3.., [0x0A]).for_each(drop)).unwrap();
}

#[test]
fn a_set_response_that_says_otherwise_is_noticed() {
    let some: (u8, &[u8]) = (SET, &[3, 0x08, 1, 1, 0x08, 1, 2, 0x12, 0]);
    verdict(&[some], |_| {}).unwrap();
    let changes: [fn(&mut Vec<u8>); 5] = [
        |response| response.splice(3.., [0, 0]).for_each(drop),
        |response| response.swap(5, 6),
        |response| response.push(0x08),
        |response| response[3] = 0,
        |response| response.splice(3.., [0]).for_each(drop),
    ];
    for change in changes {
        assert!(verdict(&[some], change).unwrap_err().contains("was due"));
    }
    let short: (u8, &[u8]) = (SET, &[1, 0x08, 1]);
    verdict(&[short], |_| {}).unwrap();
    let ok = |response: &mut Vec<u8>| response.splice(3.., [0, 0]).for_each(drop);
    assert!(verdict(&[short], ok).unwrap_err().contains("cut short"));
}

/// A set that the bench did, and did not own up to, shows at the next get, and the other way.
#[test]
fn a_set_that_is_answered_as_if_it_were_none_is_noticed() {
    for status in [5, 6] {
        let mut events = course(&[SET_08, GET_08]);
        let place = events.iter().position(|event| event.call == asked(0, SET, SET_08.1)).unwrap() + 1;
        events[place].outcome.up = vec![vec![0x40, SET, 1, status]];
        assert!(observed(&events).unwrap_err().contains("was due"));
    }
}

#[test]
fn what_reset_power_and_fresh_leave() {
    let mut events = course(&[SET_08, (0, &[0]), (1, &[0, 0]), GET_08]);
    observed(&events).unwrap();
    // the type is the command's: a reset of type 1 would have restored the default
    let place = events.iter().rposition(|event| event.call == asked(0, 0, &[0])).unwrap();
    events[place].call = asked(0, 0, &[1]);
    assert!(observed(&events).unwrap_err().contains("was due"));
    observed(&course(&[SET_08, (0, &[1]), (1, &[0, 0]), GET_08])).unwrap();
    observed(&course(&[SET_08, (0, &[7]), GET_08])).unwrap();
    for call in [Call::Power, Call::Fresh(PROFILE.to_vec())] {
        let mut bench = fresh(PROFILE);
        let again = [opening(0), moved(GET, GET_08.1)].concat();
        let calls = [opening(0), moved(SET, SET_08.1), vec![call], again].concat();
        observed(&played(&mut bench, &calls)).unwrap();
    }
}

#[test]
fn a_response_to_another_command_is_noticed() {
    let other = |response: &mut Vec<u8>| response[1] = GET;
    assert!(verdict(&[SET_08], other).unwrap_err().contains("another command"));
    let events = course(&[]);
    let response = Outcome { up: packets("40 03 02 00 00"), ..Outcome::default() };
    let events = [&events[..1], &[Event { call: Call::Credit, outcome: response }]].concat();
    assert!(observed(&events).unwrap_err().contains("no command"));
}

/// Connection 2 is open, a packet of it is stored, and one with a credit goes up.
fn busy() -> Vec<Event> {
    let traffic = [
        Call::Send { conn: 2, message: vec![1] },
        Call::Push(2),
        Call::Down,
        Call::Consume(2),
        Call::Send { conn: 2, message: vec![2] },
        Call::Push(2),
        Call::Down,
    ];
    played(&mut fresh(PROFILE), &[opening(1), traffic.to_vec(), moved(GET, &[0])].concat())
}

/// A set or a get with data, or with credits, in the same breath changes numbers.
#[test]
fn numbers_changed_by_a_set_or_a_get_are_noticed() {
    let events = busy();
    observed(&events).unwrap();
    for (name, up, down) in
        [("down", "02 01 01 01", ""), ("down", "60 06 03 01 02 01", ""), ("command", "", "02 00 00")]
    {
        let mut events = events.clone();
        let place = place_of(&events, name);
        let put = |wire: &mut Vec<Vec<u8>>, packet: &str| {
            wire.extend(packets(packet).into_iter().filter(|packet| !packet.is_empty()));
        };
        put(&mut events[place].outcome.up, up);
        put(&mut events[place].outcome.down, down);
        assert!(
            observed(&events[..=place]).unwrap_err().contains("changes what report says"),
            "{name} {up} {down}"
        );
    }
}
