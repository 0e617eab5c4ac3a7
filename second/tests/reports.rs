//! Report reads the headers of the packets on the wires, and looks into credit notices,
//! create responses and activations alone (document 02, item 3): what stands in other
//! packets changes none of its numbers.

mod common;
use common::*;
use exam_bench::bench::{Bench, WIRE_SLOTS};
use exam_bench::call::Outcome;
use exam_bench::player::{Lengths, Player, Random};

/// Connections 0 and 2 open at both ends with eight credits each, wires empty.
fn opened() -> Bench {
    let mut bench = active(&[0x20, 4, 8, 4, 8], 0);
    command(&mut bench, 0, 4, &[1, 0]);
    bench
}

/// Credits for 0 and for 2 that report counts in a packet on the up wire.
fn check_credits(packet: &str, credits: [u8; 2]) {
    let mut bench = opened();
    bench.forge_up(&octets(packet));
    assert_eq!(report(&bench, 0), [8, 0, 0, 0, credits[0]], "0: {packet}");
    assert_eq!(report(&bench, 2), [8, 0, 0, 0, credits[1]], "2: {packet}");
    // Going down no packet has credits, and data is known by its header.
    bench.up_wire.clear();
    bench.forge_down(&octets(packet));
    let going_down = |conn: u8| u8::from(octets(packet)[0] & 0xEF == conn);
    assert_eq!(report(&bench, 0), [8, going_down(0), 0, 0, 0], "0: {packet} down");
    assert_eq!(report(&bench, 2), [8, going_down(2), 0, 0, 0], "2: {packet} down");
}

fn no_credits(packets: &[&str]) {
    packets.iter().for_each(|packet| check_credits(packet, [0, 0]));
}

// Packets whose payloads look like credits.

#[test]
fn an_init_response_counts_nothing() {
    no_credits(&[
        "40 01 03 01 02 02",
        "40 01 03 01 00 02",
        "40 01 05 02 00 01 02 08",
        "40 01 04 00 04 02 02",
        "40 01 0B 01 01 04 00 04 02 00 00 00 00 00",
        "40 01 10 01 02 02 00 00 00 00 00 20 00 00 00 00 01 01 00",
        "40 01 06 60 06 03 01 02 02",
    ]);
}

/// The fifth is one that is written here: ID 1, protocol 2, mode 2.
#[test]
fn a_discover_notification_counts_nothing() {
    no_credits(&[
        "61 03 03 01 02 02",
        "61 03 03 01 00 02",
        "61 03 04 00 04 02 02",
        "61 03 0B 01 01 04 00 04 02 00 00 00 00 00",
        "61 03 05 01 02 02 00 02",
        "61 03 0B 01 04 00 06 60 06 03 01 02 02 02",
    ]);
}

/// Its credits are in the header, whatever follows.
#[test]
fn data_counts_what_its_header_says() {
    for payload in ["00", "03 01 02 02", "03 01 00 02", "04 00 04 02 02", "06 60 06 03 01 02 02"] {
        for (octet_1, credits) in [("00", 0), ("01", 1), ("02", 2), ("03", 3), ("FC", 0), ("FE", 2)] {
            check_credits(&format!("02 {octet_1} {payload}"), [0, credits]);
            check_credits(&format!("12 {octet_1} {payload}"), [0, credits]);
            check_credits(&format!("00 {octet_1} {payload}"), [credits, 0]);
            check_credits(&format!("03 {octet_1} {payload}"), [0, 0]);
            check_credits(&format!("01 {octet_1} {payload}"), [0, 0]);
        }
    }
}

#[test]
fn another_type_group_or_opcode_is_none_of_the_three() {
    no_credits(&[
        "20 06 03 01 02 02",
        "40 06 03 01 02 02",
        "61 06 03 01 02 02",
        "60 26 03 01 02 02",
        "60 07 03 01 02 02",
        "E0 06 03 01 02 02",
        "60 04 04 00 04 02 02",
        "41 04 04 00 04 02 02",
        "40 05 04 00 04 02 02",
        "40 14 04 00 04 02 02",
        "C0 04 04 00 04 02 02",
        "60 05 0B 01 01 04 00 04 02 00 00 00 00 00",
        "41 05 0B 01 01 04 00 04 02 00 00 00 00 00",
        "61 15 0B 01 01 04 00 04 02 00 00 00 00 00",
    ]);
}

// The three.

#[test]
fn more_to_follow_makes_none_of_the_three() {
    no_credits(&[
        "50 04 04 00 04 02 02",
        "50 C4 04 00 04 02 02",
        "70 06 03 01 02 02",
        "71 05 0B 01 01 04 00 04 02 00 00 00 00 00",
    ]);
}

#[test]
fn spare_bits_make_no_other_message() {
    for spare in [0x00, 0x40, 0x80, 0xC0] {
        check_credits(&format!("60 {:02X} 03 01 02 02", 0x06 | spare), [0, 2]);
        check_credits(&format!("60 {:02X} 05 02 00 01 02 08", 0x06 | spare), [1, 8]);
        check_credits(&format!("40 {:02X} 04 00 04 02 02", 0x04 | spare), [0, 2]);
        check_credits(&format!("61 {:02X} 0B 01 01 04 00 04 03 00 00 00 00 00", 0x05 | spare), [3, 0]);
    }
}

#[test]
fn a_create_response_has_four_octets() {
    no_credits(&["40 04 00", "40 04 01 00", "40 04 03 00 04 02", "40 04 05 00 04 02 02 02"]);
    no_credits(&["40 04 08 00 04 02 02 00 04 02 02"]);
}

#[test]
fn contents_never_written_count_nothing() {
    no_credits(&[
        "40 04 04 01 04 02 02",
        "40 04 04 00 00 02 02",
        "40 04 04 00 04 09 02",
        "60 06 03 02 02 02",
        "60 06 04 01 02 02 00",
        "60 06 03 01 02 09",
        "60 06 05 02 02 01 00 01",
        "61 05 0B 01 02 04 00 04 02 00 00 00 00 00",
        "61 05 0B 01 01 04 00 04 02 00 01 00 00 00",
        "61 05 0A 01 01 04 00 04 02 00 00 00 00",
    ]);
}

// All payloads but theirs.

fn is_looked_into(octets: &[u8]) -> bool {
    octets.len() >= 2 && [[0x60, 0x06], [0x40, 0x04], [0x61, 0x05]].contains(&[octets[0], octets[1] & 0x3F])
}

/// Payloads of the three, as they lie on a wire.
const CREDITS: [&str; 4] =
    ["01 02 02", "03 00 01 02 02 05 08", "00 04 02 02", "01 01 04 00 04 02 00 00 00 00 00"];

/// The bench with other octets in every packet that is none of the three, at times such
/// that look like credits; how many packets differ.
fn scrambled(bench: &Bench, random: &mut Random) -> (Bench, usize) {
    let (mut other, mut packets) = (bench.clone(), 0);
    let wires = other.down_wire.iter_mut().chain(&mut other.up_wire);
    for octets in wires.filter(|octets| octets.len() > 3 && !is_looked_into(octets)) {
        let before = octets.clone();
        let credits = common::octets(random.pick(&CREDITS));
        for (place, octet) in octets[3..].iter_mut().enumerate() {
            *octet = credits.get(place).copied().unwrap_or_else(|| random.octet());
        }
        if random.chance(50) {
            octets[3..].fill_with(|| random.octet());
        }
        packets += usize::from(*octets != before);
    }
    (other, packets)
}

fn reports(bench: &Bench) -> Vec<Outcome> {
    (0..=255).map(|conn| bench.report(conn)).collect()
}

/// A packet near those of the three, or any header over what looks like credits.
fn forged(random: &mut Random) -> Vec<u8> {
    let payload = octets(random.pick(&CREDITS));
    let first = random.pick(&[0x60, 0x40, 0x61, 0x00, 0x02, 0x12, 0x50, 0x70, 0x20]);
    let second = random.pick(&[0x06, 0x04, 0x05, 0x01, 0x03, 0xC6, 0xC4, 0xC5]);
    let header = if random.chance(20) { [random.octet(), random.octet()] } else { [first, second] };
    [&header[..], &[payload.len() as u8], &payload].concat()
}

/// Lists of calls, with packets forged between them in every other list.
#[test]
fn other_payloads_change_no_report() {
    let mut random = Random::new(41);
    let mut player = Player::new(42, Lengths::Any);
    // Packets that differ, and reports beside them with packets down or credits up, in
    // lists without and with forged packets.
    let mut met = [[0u64; 3]; 2];
    for list in 0..200 {
        let mut bench = fresh(&player.begin());
        let met = &mut met[list % 2];
        for _ in 0..150 {
            bench.play(&player.next_call(&bench));
            if list % 2 == 1 && random.chance(30) && bench.up_wire().len() < WIRE_SLOTS {
                bench.forge_up(&forged(&mut random));
            }
            if list % 2 == 1 && random.chance(30) && bench.down_wire().len() < WIRE_SLOTS {
                bench.forge_down(&forged(&mut random));
            }
            let (other, packets) = scrambled(&bench, &mut random);
            let numbers = reports(&bench);
            assert_eq!(numbers, reports(&other), "{bench:02X?}");
            if packets > 0 {
                met[0] += packets as u64;
                let above_0 = |place: usize| {
                    let numbers = numbers.iter().filter_map(|outcome| outcome.message.as_ref());
                    numbers.filter(|numbers| numbers[place] > 0).count() as u64
                };
                met[1] += above_0(1);
                met[2] += above_0(4);
            }
        }
    }
    assert!(met.iter().flatten().all(|count| *count > 1_000), "{met:?}");
}
