//! Benches that no list of calls makes, by hand.

use compare::both::Both;
use compare::lent::Room;
use compare::record::{self, RECORD_AT, SLOT, STORES_AT, STORE_SLOTS, UP_AT};
use exam_bench::call::Call;
use exam_bench::connection::CONN_IDS;

const PROFILE: [u8; 5] = [0x20, 4, 2, 4, 1];
/// Where the record says how many packets are on the up wire, and which slot is first.
const UP_HEAD: usize = RECORD_AT + 158;
const UP_COUNT: usize = RECORD_AT + 159;

/// Where it has the numbers of a connection, by the connection's place.
fn numbers(place: usize) -> usize {
    RECORD_AT + 56 + 20 * place
}

/// Among them the grant at each end, after which credits held or owed stand, and the first
/// slot of the store, after which its count stands.
const HOST_GRANT: usize = 2;
const CONTROLLER_GRANT: usize = 13;
const STORE_HEAD: usize = 15;

/// And whether a message is in hand at the host.
const HOST_HAND: usize = 4;

/// Where it has the RF state, and the pairs with their count.
const RF: usize = RECORD_AT + 24;
const PAIRS: usize = RECORD_AT + 28;
const W4_ALL_DISCOVERIES: u8 = 2;

/// Connection 0 open at both ends, wires empty.
fn active() -> Both {
    let mut both = Both::default();
    both.begin(&PROFILE).unwrap();
    let commands: [(u8, u8, &[u8]); 3] = [(0, 0, &[1]), (0, 1, &[0, 0]), (1, 3, &[1, 0, 1])];
    for (gid, oid, payload) in commands {
        step(&mut both, Call::Command { gid, oid, payload: payload.to_vec() });
        step(&mut both, Call::Down);
        while both.second.as_ref().is_some_and(|bench| !bench.up_wire.is_empty()) {
            step(&mut both, Call::Up);
        }
    }
    step(&mut both, Call::Air(vec![2, 1, 4, 0]));
    step(&mut both, Call::Up);
    both
}

fn step(both: &mut Both, call: Call) {
    let taken = both.tally.taken[call.index()];
    both.step(&call).unwrap();
    assert_eq!(both.tally.taken[call.index()], taken + 1, "{} is taken", call.name());
}

/// Puts a packet on the up wire that nobody wrote.
fn forge_up(both: &mut Both, packet: &[u8]) {
    let mut octets = both.lent.octets().to_vec();
    let slot = (octets[UP_HEAD] + octets[UP_COUNT]) % 16;
    octets[UP_AT + usize::from(slot) * SLOT..][..packet.len()].copy_from_slice(packet);
    octets[UP_COUNT] += 1;
    both.put(&octets);
}

/// Puts a packet that nobody wrote into the empty store of a connection.
fn store(both: &mut Both, place: usize, packet: &[u8]) {
    let mut octets = both.lent.octets().to_vec();
    let head = numbers(place) + STORE_HEAD;
    let slot = place * STORE_SLOTS + usize::from(octets[head]);
    octets[STORES_AT + slot * SLOT..][..packet.len()].copy_from_slice(packet);
    octets[head + 1] = 1;
    both.put(&octets);
}

/// Gives a connection a grant, and so many credits held or owed.
fn grant(both: &mut Both, at: usize, grant: u8, count: u8) {
    let mut octets = both.lent.octets().to_vec();
    octets[at..at + 2].copy_from_slice(&[grant, count]);
    both.put(&octets);
}

/// Connection 2 open at both ends besides.
fn with_loopback() -> Both {
    let mut both = active();
    step(&mut both, Call::Command { gid: 0, oid: 4, payload: vec![1, 0] });
    step(&mut both, Call::Down);
    step(&mut both, Call::Up);
    both
}

/// Whether a connection is open at the host, in both benches alike.
fn open_at_host(both: &Both, conn: u8) -> bool {
    let loaded = record::load(both.lent.octets());
    let [proved, second] = [&loaded, &both.second]
        .map(|bench| bench.as_ref().expect("the record is not damaged").host.connection(conn).is_some());
    assert_eq!(proved, second);
    second
}

/// Only on a damaged bench: a sound controller answers a CONN_CLOSE without octets by 05.
#[test]
fn a_close_that_names_no_connection_closes_none() {
    let mut both = active();
    forge_up(&mut both, &[0x40, 0x05, 0x01, 0x00]);
    step(&mut both, Call::Command { gid: 0, oid: 5, payload: vec![] });
    step(&mut both, Call::Up);
    assert!(open_at_host(&both, 0), "connection 0 stays open");
}

#[test]
fn a_close_that_names_0_closes_it() {
    let mut both = active();
    forge_up(&mut both, &[0x40, 0x05, 0x01, 0x00]);
    step(&mut both, Call::Command { gid: 0, oid: 5, payload: vec![0x30] });
    assert!(open_at_host(&both, 0), "until the response is read");
    step(&mut both, Call::Up);
    assert!(!open_at_host(&both, 0));
}

/// What a call that brought credits past a grant left: the sum modulo 256 after the grant in
/// the record. Past the grant that is damage, and all that is taken next is fresh.
fn check_sum(both: &mut Both, at: usize, grant: u8, sum: u8) {
    assert_eq!(both.lent.octets()[at..at + 2], [grant, sum]);
    let damaged = sum > grant;
    assert_eq!(both.second.is_none(), damaged, "{sum} of {grant}");
    assert_eq!(both.past_grant.left, u64::from(damaged));
    let (send, air) = (Call::Send { conn: 0, message: vec![] }, Call::Air(vec![4]));
    let command = Call::Command { gid: 0, oid: 0, payload: vec![0] };
    let host = [Call::Power, command, send, Call::Push(0), Call::Up, Call::Report(0)];
    let controller = [Call::Down, Call::Consume(0), Call::Credit, air, Call::Reply, Call::Run];
    if damaged {
        let left = both.lent.octets().to_vec();
        host.iter().chain(&controller).for_each(|call| both.step(call).unwrap());
        assert_eq!(both.damaged, 12, "each is refused with 1");
        assert_eq!(both.lent.octets(), left);
        step(both, Call::Fresh(PROFILE.to_vec()));
    } else {
        step(both, Call::Report(0));
    }
}

/// A notice, or data, that brings a connection to its grant, past it, and past 255.
#[test]
fn credits_that_the_host_reads_are_added_modulo_256() {
    let notice = &[0x60, 0x06, 0x03, 0x01, 0x00, 0x05][..];
    for (packet, credits, source) in
        [(notice, 5, 0), (&[0x00, 0x03, 0x00], 3, 1), (&[0x10, 0xFF, 0x01, 0x07], 3, 1)]
    {
        for (granted, held) in
            [(0, 0), (1, 1), (8, 3), (8, 8), (200, 199), (254, 248), (254, 252), (254, 253), (254, 254)]
        {
            let mut both = active();
            let at = numbers(0) + HOST_GRANT;
            grant(&mut both, at, granted, held);
            forge_up(&mut both, packet);
            step(&mut both, Call::Up);
            let sum = u16::from(held) + credits;
            let (past, wrapped) = (u64::from(sum > u16::from(granted)), u64::from(sum > 255));
            assert_eq!((both.past_grant.calls[source], both.past_grant.wrapped[source]), (past, wrapped));
            check_sum(&mut both, at, granted, (sum % 256) as u8);
        }
    }
}

/// Five entries, each past its grant by itself or not: one is damage enough.
#[test]
fn a_notice_is_added_entry_by_entry() {
    let mut both = with_loopback();
    let notice = [0x60, 0x06, 0x0B, 0x05, 0x00, 0x05, 0x02, 0x08, 0x03, 0x01, 0x04, 0x01, 0x05, 0x01];
    for (held, sum) in [(254, 6), (246, 254), (247, 255)] {
        grant(&mut both, numbers(0) + HOST_GRANT, 254, 254);
        grant(&mut both, numbers(1) + HOST_GRANT, 254, held);
        forge_up(&mut both, &notice);
        step(&mut both, Call::Up);
        assert_eq!(both.lent.octets()[numbers(0) + HOST_GRANT..][..2], [254, 3]);
        assert_eq!(both.lent.octets()[numbers(1) + HOST_GRANT..][..2], [254, sum]);
        assert_eq!(both.second.is_none(), sum == 255);
    }
    assert_eq!((both.past_grant.calls[0], both.past_grant.wrapped[0], both.past_grant.left), (3, 3, 1));
}

/// On 0 the packet's credit stays owed; on 2 the packet carries it and up to two more, and
/// what is left is within the grant again.
#[test]
fn a_packet_consumed_past_the_grant_is_added() {
    for (granted, owed, past) in [(0, 0, 1), (1, 0, 0), (1, 1, 1), (8, 7, 0), (8, 8, 1), (254, 254, 1)] {
        for place in [0, 1] {
            let (mut both, conn) = (with_loopback(), CONN_IDS[place]);
            let at = numbers(place) + CONTROLLER_GRANT;
            grant(&mut both, at, granted, owed);
            store(&mut both, place, &[conn, 0x00, 0x01, 0x07]);
            step(&mut both, Call::Consume(conn));
            assert_eq!(both.past_grant.calls, [0, 0, past]);
            let carried = if place == 0 { 0 } else { (owed + 1).min(3) };
            if place == 1 {
                let put = [conn, carried, 0x01, 0x07];
                assert!(both.second.as_ref().is_some_and(|bench| bench.up_wire.back().unwrap()[..] == put));
            }
            check_sum(&mut both, at, granted, owed + 1 - carried);
        }
    }
}

/// Data that carries credits for a connection that spent one, for one that is not open,
/// and for an ID that no connection has.
#[test]
fn credits_inside_data_count_where_the_connection_is_open() {
    for (first, held) in [(0x00, 1), (0x10, 1), (0x02, 0), (0x01, 0)] {
        let mut both = active();
        step(&mut both, Call::Send { conn: 0, message: vec![7] });
        step(&mut both, Call::Push(0));
        forge_up(&mut both, &[first, 0xFD, 0x01, 0x07]);
        step(&mut both, Call::Up);
        assert!(both.second.is_some_and(|bench| bench.report(0).message.unwrap()[0] == held));
    }
}

/// The two low bits of a stored packet's second octet are replaced, whatever it is.
#[test]
fn a_loopback_replaces_the_credits_of_any_packet() {
    for first in [0x02, 0x13, 0x22, 0x62, 0x82] {
        for second in [0x00, 0x03, 0x40, 0xFF] {
            let mut both = with_loopback();
            store(&mut both, 1, &[first, second, 0x01, 0x07]);
            step(&mut both, Call::Consume(2));
            let put = [first, second / 4 * 4 + 1, 0x01, 0x07];
            assert!(both.second.is_some_and(|bench| bench.up_wire.back().unwrap()[..] == put));
        }
    }
}

/// A packet that states 255 octets of payload fills its slot, whatever stood there.
#[test]
fn the_longest_packet_is_read_to_its_last_octet() {
    let mut both = active();
    let mut packet = vec![0x07; SLOT];
    packet[..3].copy_from_slice(&[0x10, 0x00, 0xFF]);
    forge_up(&mut both, &packet);
    both.wires().unwrap();
    step(&mut both, Call::Up);
}

/// A list of eight pairs in W4_ALL_DISCOVERIES has no place for a ninth, whatever its type.
#[test]
fn a_ninth_pair_is_refused() {
    for (pairs, event, answer) in [
        (8, [1, 9, 4, 0, 0], 11),
        (8, [1, 9, 4, 0, 1], 11),
        (8, [1, 9, 4, 0, 2], 11),
        (7, [1, 9, 4, 0, 2], 11),
        (7, [1, 9, 4, 0, 0], 0),
        (6, [1, 9, 4, 0, 2], 0),
    ] {
        let mut both = active();
        let mut octets = both.lent.octets().to_vec();
        octets[RF] = W4_ALL_DISCOVERIES;
        for pair in 0..8 {
            octets[PAIRS + 2 * pair..][..2].copy_from_slice(&[pair as u8 + 1, 4]);
        }
        octets[PAIRS + 16] = pairs;
        both.put(&octets);
        let before = both.tally.refusals(11);
        both.step(&Call::Air(event.to_vec())).unwrap();
        assert_eq!(both.tally.refusals(11) - before, u64::from(answer == 11), "{pairs} pairs, {event:?}");
    }
}

/// What a record has besides is not said: a message in hand where the host has the connection
/// closed, octets after an RF state that has none, a command that is answered.
#[test]
fn a_state_says_what_counts() {
    let mut both = active();
    let mut octets = both.lent.octets().to_vec();
    octets[RF] = W4_ALL_DISCOVERIES;
    octets[RECORD_AT + 12..][..4].copy_from_slice(&[0, 5, 6, 7]);
    octets[numbers(1) + HOST_HAND] = 1;
    octets[numbers(2) + CONTROLLER_GRANT - 1] = 1;
    both.put(&octets);
    both.state().unwrap();
    let mut due = [0; 27];
    due[..2].copy_from_slice(&[2, W4_ALL_DISCOVERIES]);
    due[12..].copy_from_slice(&[1, 1, 0, 0, 0, 0, 0, 1, 0, 0, 0, 0, 0, 0, 0]);
    assert_eq!(both.lent.state(Room::EXACT).unwrap().message.unwrap(), due);
}
