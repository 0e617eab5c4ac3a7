//! Benches in the states that tests begin from, and histories for the observer.
#![allow(dead_code)]

pub mod worked;

use exam_bench::bench::{Bench, WIRE_SLOTS};
use exam_bench::call::{Call, Outcome};
use exam_bench::controller::Rf;
use exam_bench::observer::{Event, Observer};
use exam_bench::trial::grants::{self, Source, Sum};

/// The profile that a sheet starts with: control 32, dynamic 4 and 2 credits,
/// static 4 and 1 credit.
pub const PROFILE: &[u8] = &[0x20, 0x04, 0x02, 0x04, 0x01];
/// The same without flow control.
pub const UNLIMITED: &[u8] = &[0x20, 0x04, 0xFF, 0x04, 0xFF];
/// Every connection with a pair of its own: 2 tight, 3 loose, 4 without flow control,
/// 5 and the static one between them.
pub const UNLIKE: &[u8] = &[0x20, 1, 1, 255, 8, 100, 255, 4, 2, 3, 5];
/// The pairs of 2, 3, 4 and 5 in it, and that of 0.
pub const UNLIKE_PAIRS: [(u8, [u8; 2]); 5] =
    [(2, [1, 1]), (3, [255, 8]), (4, [100, 255]), (5, [4, 2]), (0, [3, 5])];

/// Octets from hex pairs.
pub fn octets(text: &str) -> Vec<u8> {
    text.split_whitespace().map(|pair| u8::from_str_radix(pair, 16).unwrap()).collect()
}

/// Packets from hex pairs, `|` between packets.
pub fn packets(text: &str) -> Vec<Vec<u8>> {
    text.split('|').map(octets).collect()
}

pub fn fresh(profile: &[u8]) -> Bench {
    Bench::new(profile).unwrap()
}

pub fn taken(outcome: Outcome) -> Outcome {
    assert_eq!(outcome.answer, 0);
    outcome
}

/// Gives a command, takes it at the controller and gives the packets put up.
pub fn answers(bench: &mut Bench, gid: u8, oid: u8, payload: &[u8]) -> Vec<Vec<u8>> {
    let segments = taken(bench.command(gid, oid, payload)).down.len();
    let mut put = Vec::new();
    for _ in 0..segments {
        put = taken(bench.down()).up;
    }
    put
}

pub fn read_up(bench: &mut Bench) {
    while !bench.up_wire().is_empty() {
        taken(bench.up());
    }
}

/// The same, and the host reads all of it.
pub fn command(bench: &mut Bench, gid: u8, oid: u8, payload: &[u8]) -> Vec<Vec<u8>> {
    let put = answers(bench, gid, oid, payload);
    read_up(bench);
    put
}

/// RESET and INIT done.
pub fn ready(profile: &[u8]) -> Bench {
    let mut bench = fresh(profile);
    command(&mut bench, 0, 0, &[0]);
    command(&mut bench, 0, 1, &[0, 0]);
    bench
}

/// So many loopbacks open at both ends, from 2 on.
pub fn loopbacks(profile: &[u8], count: usize) -> Bench {
    let mut bench = ready(profile);
    for _ in 0..count {
        command(&mut bench, 0, 4, &[1, 0]);
    }
    bench
}

pub fn discovery(profile: &[u8]) -> Bench {
    let mut bench = ready(profile);
    command(&mut bench, 1, 3, &[1, 0, 1]);
    assert_eq!(bench.controller().rf(), Rf::Discovery);
    bench
}

pub fn w4_all(profile: &[u8]) -> Bench {
    let mut bench = discovery(profile);
    taken(bench.air(&[1, 1, 4, 0, 2]));
    read_up(&mut bench);
    bench
}

/// Two pairs found: (1, 4) and (2, 5).
pub fn w4_select(profile: &[u8]) -> Bench {
    let mut bench = w4_all(profile);
    taken(bench.air(&[1, 2, 5, 0, 0]));
    read_up(&mut bench);
    bench
}

pub fn selected(profile: &[u8]) -> Bench {
    let mut bench = w4_select(profile);
    command(&mut bench, 1, 4, &[1, 4, 1]);
    bench
}

/// Activated from DISCOVERY in a poll or listen mode, read by the host.
pub fn active(profile: &[u8], mode: u8) -> Bench {
    let mut bench = discovery(profile);
    let kind = if mode < 0x80 { 2 } else { 3 };
    taken(bench.air(&[kind, 1, 4, mode]));
    read_up(&mut bench);
    bench
}

pub fn listen_sleep(profile: &[u8]) -> Bench {
    let mut bench = active(profile, 0x80);
    taken(bench.air(&[5]));
    read_up(&mut bench);
    bench
}

/// A bench in each RF state after INIT.
pub fn rf_states() -> Vec<(&'static str, Bench)> {
    vec![
        ("IDLE", ready(PROFILE)),
        ("DISCOVERY", discovery(PROFILE)),
        ("W4_ALL_DISCOVERIES", w4_all(PROFILE)),
        ("W4_HOST_SELECT", w4_select(PROFILE)),
        ("W4_HOST_SELECT selected", selected(PROFILE)),
        ("POLL_ACTIVE", active(PROFILE, 0)),
        ("LISTEN_ACTIVE", active(PROFILE, 0x80)),
        ("LISTEN_SLEEP", listen_sleep(PROFILE)),
    ]
}

/// Packets that both ends drop.
pub const DROPPED: [u8; 3] = [0x80, 0, 0];

pub fn fill_up(bench: &mut Bench, packets: usize) {
    while bench.up_wire().len() < packets {
        bench.forge_up(&DROPPED);
    }
}

pub fn fill_down(bench: &mut Bench, packets: usize) {
    while bench.down_wire().len() < packets {
        bench.forge_down(&DROPPED);
    }
}

pub fn full() -> usize {
    WIRE_SLOTS
}

/// A refused call gives this number and changes nothing.
pub fn refuses(bench: &Bench, number: u8, call: impl FnOnce(&mut Bench) -> Outcome) {
    let mut played = bench.clone();
    let outcome = call(&mut played);
    assert_eq!(outcome, Outcome { answer: number, ..Outcome::default() });
    assert_eq!(played, *bench);
}

/// The call is taken; what it would do is not kept.
pub fn takes(bench: &Bench, call: impl FnOnce(&mut Bench) -> Outcome) -> Outcome {
    taken(call(&mut bench.clone()))
}

pub fn report(bench: &Bench, conn: u8) -> Vec<u8> {
    taken(bench.report(conn)).message.unwrap()
}

/// A press that is taken.
pub fn press(bench: &mut Bench) -> Outcome {
    let press = taken(bench.run());
    assert_eq!((press.rfu, press.down.len(), press.up.len()), (0, 0, 0));
    press
}

/// The moves of presses until one makes none.
pub fn moves_to_rest(bench: &mut Bench) -> usize {
    let mut moves = 0;
    loop {
        match press(bench).moves {
            0 => return moves,
            made => moves += made,
        }
    }
}

/// The sums of credits that a taken call made. Each has come to its octet, less what the
/// packet that a loopback returned carries of it.
pub fn check_sums(before: &Bench, call: &Call, after: &Bench) -> Vec<Sum> {
    let sums = grants::sums(before, call);
    for sum in &sums {
        let count = match sum.source {
            Source::Notice | Source::Data => after.host().connection(sum.conn).unwrap().held(),
            Source::Consume => after.controller().connection(sum.conn).unwrap().owed(),
        };
        let loops_back = sum.source == Source::Consume && sum.conn != 0;
        let carried = if loops_back { sum.as_octet().min(3) } else { 0 };
        assert_eq!(count, sum.as_octet() - carried, "{sum:?}");
    }
    sums
}

// Histories.

pub fn asked(gid: u8, oid: u8, payload: &[u8]) -> Call {
    Call::Command { gid, oid, payload: payload.to_vec() }
}

pub fn send(conn: u8, octets: usize) -> Call {
    Call::Send { conn, message: vec![1; octets] }
}

/// A message of the endpoint.
pub fn speak(octets: usize) -> Call {
    Call::Air([&[8][..], &vec![7; octets]].concat())
}

/// The calls that open so many loopbacks, from 2 on.
pub fn opening(count: usize) -> Vec<Call> {
    let mut calls = vec![asked(0, 0, &[0]), Call::Down, Call::Up, Call::Up];
    calls.extend([asked(0, 1, &[0, 0]), Call::Down, Call::Up]);
    for _ in 0..count {
        calls.extend([asked(0, 4, &[1, 0]), Call::Down, Call::Up]);
    }
    calls
}

/// The calls that activate connection 0 in a poll mode, from IDLE.
pub fn activating() -> Vec<Call> {
    vec![asked(1, 3, &[1, 0, 1]), Call::Down, Call::Up, Call::Air(vec![2, 1, 4, 0]), Call::Up]
}

/// Makes calls that are all taken, and tells what came of each.
pub fn played(bench: &mut Bench, calls: &[Call]) -> Vec<Event> {
    calls.iter().map(|call| Event { call: call.clone(), outcome: taken(bench.play(call)) }).collect()
}

/// An observer who has seen these events, or what it found wrong.
pub fn observed(events: &[Event]) -> Result<Observer, String> {
    let mut observer = Observer::new();
    for event in events {
        observer.see(event)?;
        observer.sum_to_grant()?;
    }
    Ok(observer)
}

/// Where the last call of this name is.
pub fn place_of(events: &[Event], name: &str) -> usize {
    events.iter().rposition(|event| event.call.name() == name).unwrap()
}
