//! A profile for each connection, in octets: five octets leave what the eleven leave that
//! repeat their pair, and the record has and judges every pair.

use compare::both::Both;
use compare::lent::{Lent, Room, Seen};
use compare::record::{AREA, RECORD_AT};
use exam_bench::call::Call;
use exam_bench::player::Random;

/// Every connection with a pair of its own: those of 2, 3, 4 and 5, then that of 0.
const UNLIKE: [u8; 11] = [0x20, 1, 1, 255, 8, 100, 255, 4, 2, 3, 5];

/// Eleven octets that repeat the pair of five.
fn spelled_out([control, p, c, static_payload, static_credits]: [u8; 5]) -> [u8; 11] {
    [control, p, c, p, c, p, c, p, c, static_payload, static_credits]
}

/// Whether an octet at a place of a profile is inside its limits: payloads stand at odd
/// places, credits at even ones.
fn inside(place: usize, octet: u8) -> bool {
    match place {
        0 => octet >= 32,
        place if place % 2 == 1 => octet >= 1,
        _ => (1..=8).contains(&octet) || octet == 255,
    }
}

/// What fresh answers in an area of any octets, and the area that it leaves.
fn fresh(lent: &mut Lent, profile: &[u8]) -> (Seen, Vec<u8>) {
    lent.damage(|octets| octets.fill(0xEE));
    let seen = lent.call(&Call::Fresh(profile.to_vec()), Room::EXACT).unwrap();
    (seen, lent.octets()[..AREA].to_vec())
}

/// Both forms are taken, or both refused with 3; word, buffer and area are the same.
fn check_alike(lent: &mut Lent, short: [u8; 5]) {
    let left = fresh(lent, &short);
    let taken = short.iter().enumerate().all(|(place, octet)| inside(place, *octet));
    assert_eq!(left.0.word, if taken { 0 } else { 3 }, "{short:?}");
    assert!(left == fresh(lent, &spelled_out(short)), "{short:?} and eleven octets leave another area");
    if taken {
        assert_eq!(left.1[RECORD_AT..][..11], spelled_out(short));
    }
}

#[test]
fn five_octets_leave_what_the_eleven_leave_that_repeat_their_pair() {
    let mut lent = Lent::default();
    for (place, octet) in (0..5).flat_map(|place| (0..=255).map(move |octet| (place, octet))) {
        let mut short = [64, 4, 2, 7, 5];
        short[place] = octet;
        check_alike(&mut lent, short);
    }
    let mut random = Random::new(31);
    for _ in 0..1_000 {
        let credits = [0, 1, 2, 7, 8, 9, 254, 255];
        let mut pair = || [random.pick(&[0, 1, 4, 255]), random.pick(&credits)];
        let ([p, c], [static_payload, static_credits]) = (pair(), pair());
        check_alike(&mut lent, [random.pick(&[31, 32, 33, 255]), p, c, static_payload, static_credits]);
    }
}

// The record.

fn begun(profile: &[u8]) -> Both {
    let mut both = Both::default();
    both.begin(profile).unwrap();
    both
}

#[test]
fn the_record_begins_with_the_octets_of_the_long_form() {
    assert_eq!(begun(&UNLIKE).lent.octets()[RECORD_AT..][..11], UNLIKE);
    let mut both = begun(&UNLIKE);
    both.step(&Call::Power).unwrap();
    assert_eq!(both.lent.octets()[RECORD_AT..][..11], UNLIKE);
}

#[test]
fn a_record_is_damaged_by_any_pair_outside_its_limits() {
    let bench = begun(&UNLIKE).lent.octets().to_vec();
    let mut both = Both::default();
    for (place, octet) in (0..11).flat_map(|place| (0..=255).map(move |octet| (place, octet))) {
        let mut octets = bench.clone();
        octets[RECORD_AT + place] = octet;
        both.put(&octets);
        assert_eq!(both.second.is_some(), inside(place, octet), "octet {place} is {octet}");
        both.step(&Call::Power).unwrap();
    }
}

/// Asks a command, has it answered and reads the answers; the last of them.
fn ask(both: &mut Both, gid: u8, oid: u8, payload: &[u8]) -> Vec<u8> {
    both.step(&Call::Command { gid, oid, payload: payload.to_vec() }).unwrap();
    both.step(&Call::Down).unwrap();
    let up = |both: &Both| both.second.as_ref().unwrap().up_wire.clone();
    let answer = up(both).back().cloned().unwrap();
    while !up(both).is_empty() {
        both.step(&Call::Up).unwrap();
    }
    answer
}

#[test]
fn each_loopback_opens_with_its_own_pair_and_again_with_it() {
    let mut both = begun(&UNLIKE);
    ask(&mut both, 0, 0, &[0]);
    ask(&mut both, 0, 1, &[0, 0]);
    for round in 0..3 {
        for conn in 2..=5 {
            if round > 0 {
                assert_eq!(ask(&mut both, 0, 5, &[conn]), [0x40, 5, 1, 0]);
            }
            let pair = &UNLIKE[2 * usize::from(conn) - 3..][..2];
            assert_eq!(ask(&mut both, 0, 4, &[1, 0]), [0x40, 4, 4, 0, pair[0], pair[1], conn]);
        }
    }
}
