//! Reserved bits of octet 1 that a sender left at 1: octets that are read alone, and packets
//! that nobody on the bench wrote, on both implementations.

use compare::both::Both;
use compare::lent::{Lent, Room};
use compare::record::{DOWN_AT, DOWN_RING, SLOT, STORES_AT, STORE_SLOTS, UP_AT, UP_RING};
use compare::word;
use exam_bench::bench::Bench;
use exam_bench::call::{Call, Outcome};
use exam_bench::player::{octets_to_read, Random};

const DOWN: (usize, usize) = (DOWN_AT, DOWN_RING);
const UP: (usize, usize) = (UP_AT, UP_RING);

/// What the proved reader answers; the second implementation answers the same.
fn read(lent: &mut Lent, octets: &[u8]) -> Outcome {
    let seen = lent.look(&Call::Read(octets.to_vec()), Room::EXACT).unwrap();
    let outcome = Bench::read(octets);
    assert_eq!(seen.word, word::of(&outcome), "{octets:02X?}");
    outcome
}

/// No payload, one with nothing of it there, one of two octets, whole and with one to spare.
#[test]
fn every_octet_0_and_octet_1_is_read_alike() {
    let mut lent = Lent::default();
    let mut shown = 0;
    for (first, second) in (0..=255).flat_map(|first| (0..=255).map(move |second| (first, second))) {
        for rest in [&[0][..], &[1], &[2, 0xAA, 0xBB], &[2, 0xAA, 0xBB, 0xCC]] {
            shown += u32::from(read(&mut lent, &[&[first, second], rest].concat()).rfu != 0);
        }
    }
    // of 32 octets 0 all but 4 octets 1, of 96 all but 64, in three of four lengths
    assert_eq!(shown, 3 * (32 * 252 + 96 * 192));
    lent.unchanged().unwrap();
}

#[test]
fn octets_of_every_length_are_read_alike() {
    let mut lent = Lent::default();
    let mut random = Random::new(61);
    for count in 0..=300 {
        for first in [0x02, 0x20, 0x5F, 0x60, 0x80] {
            let mut octets = random.octets(count);
            let states = [0, count.saturating_sub(3) as u8, 255, random.octet()];
            for stated in states {
                octets.iter_mut().zip([first, 0xFF, stated]).for_each(|(octet, other)| *octet = other);
                assert_eq!(read(&mut lent, &octets).answer, if count > 258 { 3 } else { 0 });
            }
        }
    }
    assert_eq!(read(&mut lent, &[0x20; 1600]).answer, 3);
}

#[test]
fn octets_of_every_kind_are_read_alike() {
    let mut lent = Lent::default();
    let mut random = Random::new(62);
    for _ in 0..100_000 {
        let octets = octets_to_read(&mut random);
        read(&mut lent, &octets);
    }
    lent.unchanged().unwrap();
}

/// Also on an area that is no bench.
#[test]
fn read_asks_for_no_bench() {
    let mut both = Both::default();
    for octets in [&[][..], &[0x20, 0xC0, 0], &[0xFF; 259]] {
        both.step(&Call::Read(octets.to_vec())).unwrap();
    }
    assert_eq!((both.tally.taken[Call::Read(vec![]).index()], both.tally.refusals(3)), (2, 1));
}

// Packets on the wires.

/// Connections 0 and 2 open at both ends without flow control, wires empty.
fn opened() -> Both {
    let mut both = Both::default();
    both.begin(&[0x20, 4, 255, 4, 255]).unwrap();
    let commands: [(u8, u8, &[u8]); 4] = [(0, 0, &[1]), (0, 1, &[0, 0]), (0, 4, &[1, 0]), (1, 3, &[1, 0, 1])];
    for (gid, oid, payload) in commands {
        both.step(&Call::Command { gid, oid, payload: payload.to_vec() }).unwrap();
        [Call::Down, Call::Up, Call::Up].iter().for_each(|call| both.step(call).unwrap());
    }
    [Call::Air(vec![2, 1, 4, 0]), Call::Up].iter().for_each(|call| both.step(call).unwrap());
    both
}

/// The bench with one packet on a wire.
fn with_packet(bench: &[u8], (slots, ring): (usize, usize), packet: &[u8]) -> Vec<u8> {
    let mut octets = bench.to_vec();
    octets[slots..][..packet.len()].copy_from_slice(packet);
    octets[ring..ring + 2].copy_from_slice(&[0, 1]);
    octets
}

/// The drop flag and the reserved bits that a call shows; both benches have made it.
fn shown(both: &mut Both, octets: &[u8], call: &Call) -> (bool, u8) {
    both.put(octets);
    let before = both.second.clone();
    both.step(call).unwrap();
    let outcome = before.unwrap().play(call);
    assert!(outcome.taken());
    (outcome.drop, outcome.rfu)
}

/// Every message type that an end takes, open and closed connections, and those it drops.
#[test]
fn down_and_up_show_every_octet_1_alike() {
    let mut both = opened();
    let bench = both.lent.octets().to_vec();
    for first in [0x00, 0x02, 0x12, 0x03, 0x0F, 0x20, 0x31, 0x40, 0x60, 0x71, 0x80, 0xE2] {
        for second in 0..=255 {
            let packet = [first, second, 1, 0xAA];
            let (data, open) = (first < 0x20, [0, 2].contains(&(first & 0x0F)));
            let (drop, rfu) = shown(&mut both, &with_packet(&bench, DOWN, &packet), &Call::Down);
            let taken = if data { open } else { first >> 5 == 1 };
            let bits = if data { second } else { second & 0xC0 };
            assert_eq!((drop, rfu), (!taken, if taken { bits } else { 0 }), "down {packet:02X?}");
            let (drop, rfu) = shown(&mut both, &with_packet(&bench, UP, &packet), &Call::Up);
            let taken = if data { open } else { first >> 5 == 3 };
            let bits = second & if data { 0xFC } else { 0xC0 };
            assert_eq!((drop, rfu), (!taken, if taken { bits } else { 0 }), "up {packet:02X?}");
        }
    }
}

/// A response that is awaited, and the notice that drops an entry.
#[test]
fn what_up_hears_is_shown_and_what_it_drops_is_not() {
    let mut both = opened();
    both.step(&Call::Command { gid: 0, oid: 4, payload: vec![1, 0] }).unwrap();
    let bench = both.lent.octets().to_vec();
    for (packet, due) in [
        (&[0x40, 0xC4, 1, 1][..], (false, 0xC0)),
        (&[0x40, 0xC5, 1, 0], (true, 0)),
        (&[0x60, 0xC7, 1, 0xA1], (false, 0xC0)),
        (&[0x60, 0x46, 3, 1, 3, 1], (true, 0)),
        (&[0x60, 0x46, 5, 2, 2, 1, 3, 1], (true, 0)),
    ] {
        assert_eq!(shown(&mut both, &with_packet(&bench, UP, packet), &Call::Up), due, "{packet:02X?}");
    }
}

/// Consume shows nothing; what it returns is shown by up, but for the place of credits.
#[test]
fn a_loopback_returns_reserved_bits() {
    let mut both = opened();
    for second in [0x00, 0x03, 0x40, 0xAB, 0xFF] {
        let octets = with_packet(&both.lent.octets().to_vec(), DOWN, &[0x02, second, 1, 0xAA]);
        assert_eq!(shown(&mut both, &octets, &Call::Down), (false, second));
        let stored = both.lent.octets().to_vec();
        let slots = stored[STORES_AT + STORE_SLOTS * SLOT..].chunks(SLOT).take(STORE_SLOTS);
        assert!(slots.map(|slot| &slot[..2]).any(|header| header == [0x02, second]));
        assert_eq!(shown(&mut both, &stored, &Call::Consume(2)), (false, 0));
        let returned = both.lent.octets().to_vec();
        assert_eq!(shown(&mut both, &returned, &Call::Up), (false, second & 0xFC));
    }
}
