//! Each export once, as a program in Rust calls it, and the refusals that concern octets
//! alone.

use compare::lent::{Lent, Room, Seen};
use compare::record::AREA;
use compare::word;
use exam_bench::call::Call;

const PROFILE: [u8; 5] = [0x20, 4, 2, 4, 1];
const DOWN: u8 = 0;
const UP: u8 = 1;

fn command(gid: u8, oid: u8, payload: &[u8]) -> Call {
    Call::Command { gid, oid, payload: payload.to_vec() }
}

/// Makes a call that is taken; what it answered.
fn taken(lent: &mut Lent, call: Call) -> Seen {
    let seen = lent.call(&call, Room::EXACT).unwrap();
    assert_eq!(word::answer(seen.word), 0, "{}", call.name());
    seen
}

/// The packet so many back on a wire.
fn packet(lent: &mut Lent, wire: u8, back: u8) -> Vec<u8> {
    lent.packet(wire, back, Room::EXACT).unwrap().message.expect("there is one")
}

/// What is going on. The area stays.
fn state(lent: &mut Lent) -> Vec<u8> {
    let seen = lent.state(Room::EXACT).unwrap();
    assert_eq!(seen.word, 1 << 9 | 27 << 16);
    lent.unchanged().unwrap();
    seen.message.expect("27 octets")
}

/// A controller that is brought up, an open loopback and an activation.
fn opened() -> Lent {
    let mut lent = Lent::default();
    taken(&mut lent, Call::Fresh(PROFILE.to_vec()));
    taken(&mut lent, Call::Power);
    for asked in [command(0, 0, &[1]), command(0, 1, &[0, 0]), command(0, 4, &[1, 0]), command(1, 3, &[0])] {
        taken(&mut lent, asked);
        taken(&mut lent, Call::Down);
        while word::answer(lent.call(&Call::Up, Room::EXACT).unwrap().word) == 0 {}
    }
    taken(&mut lent, Call::Air(vec![2, 1, 4, 0]));
    assert_eq!(packet(&mut lent, UP, 0), [0x61, 5, 11, 1, 1, 4, 0, 4, 1, 0, 0, 0, 0, 0]);
    taken(&mut lent, Call::Up);
    lent
}

#[test]
fn each_export_once() {
    let mut lent = opened();
    taken(&mut lent, Call::Send { conn: 2, message: vec![1, 2, 3, 4, 5] });
    assert_eq!(taken(&mut lent, Call::Push(2)).word, 1 << 32);
    assert_eq!(packet(&mut lent, DOWN, 0), [0x12, 0, 4, 1, 2, 3, 4]);
    taken(&mut lent, Call::Push(2));
    taken(&mut lent, Call::Down);
    taken(&mut lent, Call::Down);
    taken(&mut lent, Call::Consume(2));
    let seen = taken(&mut lent, Call::Consume(2));
    assert_eq!((seen.word, seen.message), (1 << 9 | 5 << 16 | 1 << 40, Some(vec![1, 2, 3, 4, 5])));
    assert_eq!(taken(&mut lent, Call::Report(2)).message, Some(vec![0, 0, 0, 0, 2]));
    assert_eq!(packet(&mut lent, UP, 1), [0x12, 1, 4, 1, 2, 3, 4]);
    taken(&mut lent, Call::Send { conn: 0, message: vec![6] });
    taken(&mut lent, Call::Push(0));
    taken(&mut lent, Call::Down);
    assert_eq!(taken(&mut lent, Call::Consume(0)).message, Some(vec![6]));
    taken(&mut lent, Call::Credit);
    assert_eq!(packet(&mut lent, UP, 0), [0x60, 6, 3, 1, 0, 1]);
    taken(&mut lent, Call::Air(vec![8, 9]));
    let open = [1, 1, 0, 1, 1, 0, 0, 0, 0, 0, 0, 0, 0, 0, 0];
    assert_eq!(state(&mut lent), [&[2, 4, 1, 4, 0, 0, 0, 0, 0, 0, 3, 1][..], &open].concat());
    taken(&mut lent, Call::Reply);
    assert_eq!(packet(&mut lent, UP, 0), [0, 0, 1, 9]);
    let handed: Vec<_> = (0..4).map(|_| taken(&mut lent, Call::Up).message).collect();
    assert_eq!(handed, [None, Some(vec![1, 2, 3, 4, 5]), None, Some(vec![9])]);
    taken(&mut lent, Call::Send { conn: 2, message: vec![1, 2, 3, 4, 5] });
    for word in [1 << 9 | 5 << 16 | 7 << 32, 1 << 9 | 5 << 16 | 1 << 32, 0] {
        assert_eq!(taken(&mut lent, Call::Run).word, word);
    }
    assert_eq!(taken(&mut lent, Call::Read(vec![0x60, 0xC6, 0])).word, 0xC0 << 48);
}

#[test]
fn octets_of_every_length_for_a_profile() {
    let mut lent = opened();
    let ones = [&[0x20][..], &[1; 299]].concat();
    for octets in 0..=300 {
        let seen = lent.call(&Call::Fresh(ones[..octets].to_vec()), Room::EXACT).unwrap();
        assert_eq!(seen.word, if octets == 5 || octets == 11 { 0 } else { 3 }, "{octets}");
    }
}

#[test]
fn a_short_area_comes_first_then_the_record_then_the_buffer() {
    let mut lent = opened();
    let calls = [Call::Power, Call::Down, Call::Report(9), Call::Push(1), Call::Run];
    for damaged in [false, true] {
        if damaged {
            lent.damage(|octets| octets[AREA - 512] = 0);
        }
        for area in [0, 1, AREA - 512, AREA - 1] {
            for buffer in [0, 1023, 1024] {
                for call in &calls {
                    assert_eq!(lent.call(call, Room { area, buffer }).unwrap().word, 2);
                }
                assert_eq!(lent.packet(9, 9, Room { area, buffer }).unwrap().word, 2);
                assert_eq!(lent.state(Room { area, buffer }).unwrap().word, 2);
            }
        }
        for buffer in [0, 1, 1023] {
            let due = if damaged { 1 } else { 2 };
            for call in &calls {
                assert_eq!(lent.call(call, Room { area: AREA, buffer }).unwrap().word, due);
            }
            assert_eq!(lent.packet(9, 9, Room { area: AREA, buffer }).unwrap().word, due);
            assert_eq!(lent.state(Room { area: AREA, buffer }).unwrap().word, due);
        }
    }
}

/// A fresh bench is made of any octets, and only of its own 36,864.
#[test]
fn fresh_writes_every_octet_of_the_area() {
    let mut lent = Lent::default();
    taken(&mut lent, Call::Fresh(PROFILE.to_vec()));
    let first = lent.octets().to_vec();
    lent.damage(|octets| octets.fill(0xEE));
    let room = Room { area: AREA + 500, buffer: 1500 };
    assert_eq!(lent.call(&Call::Fresh(PROFILE.to_vec()), room).unwrap().word, 0);
    assert_eq!(lent.octets(), first);
}
