//! Report on wires with packets forged by hand, to the number; and benches whose payloads are
//! changed at random.

use compare::both::Both;
use compare::lent::Room;
use compare::record::{DOWN_AT, DOWN_RING, SLOT, UP_AT, UP_RING, WIRE_SLOTS};
use compare::reports::Reports;
use exam_bench::call::Call;

/// Eight credits on every connection.
const PROFILE: [u8; 5] = [0x20, 4, 8, 4, 8];

fn ask(both: &mut Both, gid: u8, oid: u8, payload: &[u8]) {
    both.step(&Call::Command { gid, oid, payload: payload.to_vec() }).unwrap();
    for call in [Call::Down, Call::Up, Call::Up] {
        both.step(&call).unwrap();
    }
}

/// Connections 0 and 2 open at both ends, wires empty.
fn opened() -> Both {
    let mut both = Both::default();
    both.begin(&PROFILE).unwrap();
    ask(&mut both, 0, 0, &[1]);
    ask(&mut both, 0, 1, &[0, 0]);
    ask(&mut both, 0, 4, &[1, 0]);
    ask(&mut both, 1, 3, &[1, 0, 1]);
    both.step(&Call::Air(vec![2, 1, 4, 0])).unwrap();
    both.step(&Call::Up).unwrap();
    both
}

/// So many of this packet on a wire, from this slot on.
fn fill(octets: &mut [u8], (slots, ring): (usize, usize), packet: &[u8], (head, count): (usize, usize)) {
    for place in 0..count {
        octets[slots + (head + place) % WIRE_SLOTS * SLOT..][..packet.len()].copy_from_slice(packet);
    }
    octets[ring] = head as u8;
    octets[ring + 1] = count as u8;
}

fn numbers(both: &mut Both, conn: u8) -> Vec<u8> {
    both.step(&Call::Report(conn)).unwrap();
    both.lent.look(&Call::Report(conn), Room::EXACT).unwrap().message.unwrap()
}

/// A packet on the up wire once and sixteen times, and the same going down: credits for 0 and
/// for 2 that it has.
fn check_credits(packet: &[u8], credits: [u8; 2]) {
    let mut both = opened();
    let bench = both.lent.octets().to_vec();
    for (head, count) in [(0, 1), (15, 1), (0, 16), (9, 16)] {
        for (wire, times) in [((UP_AT, UP_RING), count as u8), ((DOWN_AT, DOWN_RING), 0)] {
            let mut octets = bench.clone();
            fill(&mut octets, wire, packet, (head, count));
            both.put(&octets);
            for (conn, credits) in [0, 2].into_iter().zip(credits) {
                let data = times == 0 && packet[0] & 0xEF == conn;
                let going_down = if data { count as u8 } else { 0 };
                let due = [8, going_down, 0, 0, times * credits];
                assert_eq!(numbers(&mut both, conn), due, "{conn}: {packet:02X?}");
            }
        }
    }
}

fn no_credits(packets: &[&[u8]]) {
    packets.iter().for_each(|packet| check_credits(packet, [0, 0]));
}

#[test]
fn responses_and_notifications_that_look_like_credits() {
    no_credits(&[
        &[0x40, 0x01, 3, 1, 2, 2],
        &[0x40, 0x01, 4, 0, 4, 2, 2],
        &[0x40, 0x01, 16, 1, 2, 2, 0, 0, 0, 0, 0, 32, 0, 0, 0, 0, 1, 1, 0],
        &[0x61, 0x03, 3, 1, 2, 2],
        &[0x61, 0x03, 5, 1, 2, 2, 0, 2],
        &[0x61, 0x03, 11, 1, 1, 4, 0, 4, 2, 0, 0, 0, 0, 0],
        &[0x40, 0x06, 3, 1, 2, 2],
        &[0x60, 0x26, 3, 1, 2, 2],
        &[0x60, 0x04, 4, 0, 4, 2, 2],
    ]);
}

#[test]
fn data_that_looks_like_credits() {
    for payload in [&[3, 1, 2, 2][..], &[3, 1, 0, 2], &[4, 0, 4, 2, 2], &[6, 0x60, 0x06, 3, 1, 2, 2]] {
        for (second, credits) in [(0x00, 0), (0x01, 1), (0x03, 3), (0xFC, 0), (0xFE, 2)] {
            check_credits(&[&[0x02, second], payload].concat(), [0, credits]);
            check_credits(&[&[0x10, second], payload].concat(), [credits, 0]);
            check_credits(&[&[0x05, second], payload].concat(), [0, 0]);
        }
    }
}

#[test]
fn more_to_follow_other_lengths_and_contents_never_written() {
    no_credits(&[
        &[0x50, 0x04, 4, 0, 4, 2, 2],
        &[0x70, 0x06, 3, 1, 2, 2],
        &[0x71, 0x05, 11, 1, 1, 4, 0, 4, 2, 0, 0, 0, 0, 0],
        &[0x40, 0x04, 0],
        &[0x40, 0x04, 3, 0, 4, 2],
        &[0x40, 0x04, 5, 0, 4, 2, 2, 2],
        &[0x40, 0x04, 4, 0, 0, 2, 2],
        &[0x60, 0x06, 4, 1, 2, 2, 0],
        &[0x60, 0x06, 3, 1, 2, 9],
        &[0x61, 0x05, 11, 1, 2, 4, 0, 4, 2, 0, 0, 0, 0, 0],
    ]);
}

#[test]
fn spare_bits_make_no_other_message() {
    for spare in [0x00, 0x40, 0x80, 0xC0] {
        check_credits(&[0x60, 0x06 | spare, 3, 1, 2, 2], [0, 2]);
        check_credits(&[0x60, 0x06 | spare, 5, 2, 0, 1, 2, 8], [1, 8]);
        check_credits(&[0x40, 0x04 | spare, 4, 0, 4, 2, 2], [0, 2]);
        check_credits(&[0x61, 0x05 | spare, 11, 1, 1, 4, 0, 4, 3, 0, 0, 0, 0, 0], [3, 0]);
    }
}

#[test]
fn payloads_that_report_does_not_look_into() {
    let mut reports = Reports::new(7);
    while reports.met.benches() < 400 {
        reports.round().unwrap();
    }
    assert!(reports.met.fields().ends_with(" gaps=none"), "{}", reports.met.fields());
}
