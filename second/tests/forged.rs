//! Wires with any octets: every call still answers, refused calls change nothing,
//! wires and stores stay inside their limits and credits are sums modulo 256.

mod common;
use common::*;
use exam_bench::bench::{Bench, WIRE_SLOTS};
use exam_bench::controller::STORE_PACKETS;
use exam_bench::player::{Lengths, Player, Random};

/// Packets as they are written here, and some that are dropped.
const WRITTEN: [&str; 31] = [
    "20 00 01 00",
    "20 01 02 00 00",
    "20 02 07 02 08 01 01 68 01 20",
    "20 03 03 02 08 20",
    "30 03 01 01",
    "20 04 02 01 00",
    "30 04 01 01",
    "20 04 01 00",
    "21 03 03 01 00 01",
    "21 06 01 00",
    "40 00 01 00",
    "40 01 10 00 00 00 00 00 04 00 00 40 00 00 00 00 01 01 00",
    "40 02 02 00 00",
    "40 02 03 09 01 08",
    "40 03 07 00 02 08 01 01 20 00",
    "40 04 04 00 04 02 02",
    "50 04 02 00 04",
    "40 05 01 00",
    "60 06 03 01 02 02",
    "60 06 07 03 00 01 03 08 05 01",
    "70 06 02 01 02",
    "61 05 0B 01 01 04 00 04 01 00 00 00 00 00",
    "61 06 02 00 00",
    "00 00 01 AA",
    "00 02 01 AA",
    "02 00 02 AA BB",
    "02 01 02 AA BB",
    "12 00 02 AA BB",
    "12 03 01 AA",
    "13 00 00",
    "80 00 00",
];

const LISTS: usize = 600;

/// A packet near those that are written here: one of them with an octet changed,
/// cut or lengthened, or noise. Data of connection 0 comes often: consume returns no
/// credits there, so that it can pass a grant.
fn forged(random: &mut Random) -> Vec<u8> {
    if random.chance(20) {
        return octets("00 00 01 AA");
    }
    let mut octets = octets(random.pick(&WRITTEN));
    let place = random.below(octets.len());
    match random.below(8) {
        0 => octets[place] = random.octet(),
        1 => octets[place] ^= 1 << random.below(8),
        2 => octets.truncate(place),
        3 => octets.push(random.octet()),
        4 => {
            octets = random.octets(258);
            octets[2] = 255;
        }
        _ => {}
    }
    octets
}

fn check_limits(bench: &Bench) {
    assert!(bench.down_wire().len() <= WIRE_SLOTS && bench.up_wire().len() <= WIRE_SLOTS);
    for conn in [0, 2, 3, 4, 5] {
        if let Some(open) = bench.controller().connection(conn) {
            assert!(open.stored() <= STORE_PACKETS);
            assert_eq!(report(bench, conn).len(), 5);
        }
    }
}

#[test]
fn any_octets_on_the_wires() {
    let mut random = Random::new(5);
    let mut player = Player::new(6, Lengths::Any).without_reads();
    // Sums past the grant, by what added to them.
    let mut past_grant = [0u32; 3];
    for _ in 0..LISTS {
        let mut bench = fresh(&player.begin());
        for _ in 0..200 {
            if random.chance(40) && bench.up_wire().len() < WIRE_SLOTS {
                bench.forge_up(&forged(&mut random));
            }
            if random.chance(40) && bench.down_wire().len() < WIRE_SLOTS {
                bench.forge_down(&forged(&mut random));
            }
            let before = bench.clone();
            let call = player.next_call(&before);
            let outcome = bench.play(&call);
            if outcome.taken() {
                for sum in check_sums(&before, &call, &bench) {
                    past_grant[sum.source as usize] += u32::from(sum.passes_grant());
                }
            } else {
                assert_eq!(bench, before);
            }
            check_limits(&bench);
        }
    }
    assert!(!past_grant.contains(&0), "by notices, data and consume: {past_grant:?}");
}

// Openings that the host reads twice: the later one begins the connection anew.

#[test]
fn an_activation_read_while_0_is_open_opens_it_anew() {
    let mut bench = active(&[0x20, 4, 2, 4, 8], 0);
    taken(bench.send(0, &[1; 8]));
    taken(bench.push(0));
    bench.forge_up(&octets("10 00 01 AA"));
    taken(bench.up());
    bench.forge_up(&octets("61 05 0B 01 01 04 00 02 03 00 00 00 00 00"));
    assert!(!taken(bench.up()).drop);
    assert_eq!(bench.host().connection(0).unwrap().held(), 3);
    refuses(&bench, 8, |bench| bench.push(0));
    bench.forge_up(&octets("00 00 01 BB"));
    assert_eq!(taken(bench.up()).message, Some(vec![0xBB]));
    // Data is cut at the payload that the activation states.
    taken(bench.send(0, &[1, 2, 3]));
    assert_eq!(taken(bench.push(0)).down, packets("10 00 02 01 02"));
}

#[test]
fn the_host_takes_payload_and_grant_from_what_it_reads() {
    let mut bench = ready(PROFILE);
    taken(bench.command(0, 4, &[1, 0]));
    bench.forge_up(&octets("40 04 04 00 01 FF 05"));
    taken(bench.up());
    taken(bench.send(5, &[1; 20]));
    for _ in 0..12 {
        assert_eq!(taken(bench.push(5)).down, packets("15 00 01 01"));
    }
}
