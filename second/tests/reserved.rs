//! Reserved bits of octet 1 that a sender left at 1 (document 02, "Reserved bits shown"):
//! read, down and up show them, and no other call does.

mod common;
use common::*;
use exam_bench::bench::Bench;
use exam_bench::call::{Call, Outcome};
use exam_bench::observer::{Event, Observer};
use exam_bench::player::{octets_to_read, Lengths, Player, Random};

/// MT and octet 0 without it: data of connection 2, or GID 0.
fn first_octet(message_type: u8) -> u8 {
    message_type << 5 | if message_type == 0 { 2 } else { 0 }
}

/// Octet 1 without the bits that the standard gives a meaning to: below 64 the OID of
/// control, below 4 the credits of data going up.
fn reserved_of(second: u8, meant: u8) -> u8 {
    second / meant * meant
}

/// Connections 0 and 2 open at both ends with eight credits each, wires empty.
fn opened() -> Bench {
    let mut bench = active(&[0x20, 4, 8, 4, 8], 0);
    command(&mut bench, 0, 4, &[1, 0]);
    bench
}

fn read(octets: &[u8]) -> Outcome {
    taken(Bench::read(octets))
}

/// What read answers to any octets, said without the reader: over 258 are refused with 3;
/// short of what octet 2 states, or with an RFU MT (from 80 on), they are a drop; else the
/// bits of octet 1 are shown that data going up, or control, leaves at 0.
fn reading_of(octets: &[u8]) -> Outcome {
    let (answer, drop, rfu) = match octets {
        _ if octets.len() > 258 => (3, false, 0),
        [first, second, length, payload @ ..] if *first < 0x80 && payload.len() >= usize::from(*length) => {
            (0, false, reserved_of(*second, if *first < 0x20 { 4 } else { 64 }))
        }
        _ => (0, true, 0),
    };
    Outcome { answer, drop, rfu, ..Outcome::default() }
}

/// A taken call that dropped something and shows no bits.
fn dropped(outcome: Outcome) {
    assert!(taken(outcome.clone()).drop);
    assert_eq!(outcome.rfu, 0);
}

fn take_down(bench: &mut Bench, packet: &[u8]) -> Outcome {
    bench.forge_down(packet);
    bench.down()
}

fn take_up(bench: &mut Bench, packet: &[u8]) -> Outcome {
    bench.forge_up(packet);
    bench.up()
}

/// The same on a copy.
fn forged_down(bench: &Bench, packet: &[u8]) -> Outcome {
    take_down(&mut bench.clone(), packet)
}

fn forged_up(bench: &Bench, packet: &[u8]) -> Outcome {
    take_up(&mut bench.clone(), packet)
}

// Every octet 1.

/// No end is asked: a command is read as the rest.
#[test]
fn read_shows_the_bits_of_every_octet_1() {
    for second in 0..=255 {
        for more in [0x00, 0x10] {
            let of = |message_type| read(&[first_octet(message_type) | more, second, 1, 0xAA]).rfu;
            assert_eq!(of(0), reserved_of(second, 4));
            assert_eq!([of(1), of(2), of(3)], [reserved_of(second, 64); 3]);
            for message_type in 4..8 {
                dropped(Bench::read(&[first_octet(message_type) | more, second, 1, 0xAA]));
            }
        }
    }
}

/// Data is stored, whatever its bits; what comes down is data or commands.
#[test]
fn down_shows_the_bits_of_every_octet_1() {
    let bench = opened();
    for second in 0..=255 {
        let down = |message_type| forged_down(&bench, &[first_octet(message_type), second, 0]);
        let (data, command) = (taken(down(0)), taken(down(1)));
        assert_eq!((data.drop, data.rfu), (false, second));
        assert_eq!((command.drop, command.rfu), (false, reserved_of(second, 64)));
        (2..8).for_each(|message_type| dropped(down(message_type)));
    }
}

/// A notification that nobody knows is read and has no effect; a response is awaited.
#[test]
fn up_shows_the_bits_of_every_octet_1() {
    let bench = opened();
    for second in 0..=255 {
        let up = |message_type| forged_up(&bench, &[first_octet(message_type), second, 0]);
        let (data, notification) = (taken(up(0)), taken(up(3)));
        assert_eq!((data.drop, data.rfu), (false, reserved_of(second, 4)));
        assert_eq!((notification.drop, notification.rfu), (false, reserved_of(second, 64)));
        [1, 2, 4, 5, 6, 7].into_iter().for_each(|message_type| dropped(up(message_type)));
        let mut asking = bench.clone();
        taken(asking.command(0, second % 64, &[]));
        let response = taken(forged_up(&asking, &[0x40, second, 1, 1]));
        assert_eq!((response.drop, response.rfu), (false, reserved_of(second, 64)));
    }
}

/// The bits change nothing else that the call does.
#[test]
fn a_packet_is_taken_as_it_is_without_the_bits() {
    let (mut with, mut without) = (opened(), opened());
    for (packet, bits) in [("20 04 02 01 00", 0xC0), ("20 05 01 03", 0x40), ("20 00 01 00", 0x80)] {
        let mut packet = octets(packet);
        without.forge_down(&packet);
        packet[1] |= bits;
        with.forge_down(&packet);
        let (shown, plain) = (taken(with.down()), taken(without.down()));
        assert_eq!(shown, Outcome { rfu: bits, ..plain });
        assert_eq!(with, without);
    }
}

/// A loopback returns a packet as it came, but for the credits: these were reserved on
/// the way down, and are not on the way up.
#[test]
fn bits_that_came_down_go_up_again() {
    for second in 0..=255 {
        let mut bench = opened();
        bench.forge_down(&[0x02, second, 1, 0xAA]);
        assert_eq!(taken(bench.down()).rfu, second);
        let returned = taken(bench.consume(2));
        assert_eq!((returned.rfu, returned.up[0][1]), (0, second / 4 * 4 + 1));
        assert_eq!(taken(bench.up()).rfu, second / 4 * 4);
    }
}

// Drops.

#[test]
fn octets_that_are_no_packet_show_nothing() {
    for short in ["", "20", "20 C0", "20 C0 01", "02 FF 02 AA", "80 C0 00", "E2 FF 00"] {
        dropped(Bench::read(&octets(short)));
        dropped(forged_down(&opened(), &octets(short)));
        dropped(forged_up(&opened(), &octets(short)));
    }
    let whole = [&[0x60, 0xC6, 255][..], &[7; 255]].concat();
    for length in 0..258 {
        dropped(Bench::read(&whole[..length]));
    }
    assert_eq!(read(&whole).rfu, 0xC0);
}

#[test]
fn octets_past_the_stated_length_are_ignored() {
    for length in 0..=255 {
        let packet = [&[0x13, 0xFF, length][..], &[0xC0; 255]].concat();
        assert_eq!(read(&packet).rfu, 0xFC);
    }
}

#[test]
fn data_for_a_connection_that_is_not_open_shows_nothing() {
    for first in [0x03, 0x13, 0x01, 0x0F] {
        dropped(forged_down(&opened(), &[first, 0xFF, 1, 0xAA]));
        dropped(forged_up(&opened(), &[first, 0xFF, 1, 0xAA]));
        assert_eq!(read(&[first, 0xFF, 1, 0xAA]).rfu, 0xFC);
    }
}

/// One that is not of the unanswered command, and one where there is no such command.
#[test]
fn a_response_that_is_not_awaited_shows_nothing() {
    let mut bench = opened();
    dropped(forged_up(&bench, &[0x40, 0xC5, 1, 0]));
    taken(bench.command(0, 4, &[1, 0]));
    dropped(forged_up(&bench, &[0x40, 0xC5, 1, 0]));
    assert_eq!(taken(forged_up(&bench, &[0x40, 0xC4, 1, 1])).rfu, 0xC0);
}

/// From the segment that passes the limit up to the last.
#[test]
fn a_run_past_its_limit_shows_nothing() {
    check_run(take_down, 0x20, 0xC4);
    check_run(take_up, 0x60, 0x47);
}

/// A control run of this octet 0, but for PBF, and octet 1.
fn check_run(take: fn(&mut Bench, &[u8]) -> Outcome, first: u8, second: u8) {
    let mut bench = opened();
    let full = [&[first | 0x10, second, 255][..], &[7; 255]].concat();
    assert_eq!(taken(take(&mut bench, &full)).rfu, second & 0xC0);
    dropped(take(&mut bench, &[first | 0x10, second, 1, 7]));
    dropped(take(&mut bench, &[first, second, 0]));
    assert_eq!(taken(take(&mut bench, &[first, second, 0])).rfu, second & 0xC0);
}

#[test]
fn a_data_run_past_its_limit_shows_nothing_at_the_host() {
    let mut bench = opened();
    let full = [&[0x12, 0xFC, 255][..], &[7; 255]].concat();
    (0..4).for_each(|_| assert_eq!(taken(take_up(&mut bench, &full)).rfu, 0xFC));
    dropped(take_up(&mut bench, &full));
    dropped(take_up(&mut bench, &[0x02, 0xFC, 0]));
    assert_eq!(taken(take_up(&mut bench, &[0x02, 0xFC, 0])).rfu, 0xFC);
}

/// The flag may stand for an entry alone: the packet was read, and the others count.
#[test]
fn a_credit_notice_with_an_entry_for_a_closed_connection_shows_nothing() {
    let mut bench = opened();
    bench.forge_holding(2, 8, 1);
    dropped(forged_up(&bench, &octets("60 C6 05 02 02 01 03 01")));
    dropped(forged_up(&bench, &octets("60 C6 03 01 05 01")));
    assert_eq!(taken(forged_up(&bench, &octets("60 C6 03 01 02 01"))).rfu, 0xC0);
}

// Refusals, and calls that show none.

#[test]
fn refused_calls_show_nothing() {
    for length in [259, 260, 300, 1024, 1044, 100_000] {
        let mut packet = vec![0xC0; length];
        packet[0] = 0x20;
        assert_eq!(Bench::read(&packet), Outcome { answer: 3, ..Outcome::default() });
        assert_eq!(read(&packet[..258]).rfu, 0xC0);
    }
    let mut bench = opened();
    bench.forge_down(&[0x20, 0xC0, 1, 0]);
    fill_up(&mut bench, full() - 1);
    refuses(&bench, 4, |bench| bench.down());
    let mut bench = opened();
    (0..8).for_each(|_| bench.forge_stored(2, &[0x02, 0xFF, 0]));
    bench.forge_down(&[0x02, 0xFF, 0]);
    refuses(&bench, 12, |bench| bench.down());
}

/// Consume takes a stored packet, and report and the wires' readers look at packets: none
/// of them shows bits.
#[test]
fn other_calls_show_nothing() {
    let mut bench = opened();
    (0..2).for_each(|_| bench.forge_stored(2, &[0x02, 0xFF, 0]));
    bench.forge_stored(0, &[0x00, 0xFF, 0]);
    bench.forge_down(&[0x02, 0xFF, 0]);
    bench.forge_up(&[0x02, 0xFF, 0]);
    for call in [
        Call::Consume(2),
        Call::Consume(0),
        Call::Credit,
        Call::Report(2),
        Call::Air(vec![8, 1]),
        Call::Reply,
        Call::Send { conn: 2, message: vec![1] },
        Call::Push(2),
        asked(0, 63, &[0xFF]),
        Call::Power,
        Call::Fresh(PROFILE.to_vec()),
    ] {
        assert_eq!(taken(bench.play(&call)).rfu, 0, "{}", call.name());
    }
}

// Read beside the calls of a list.

#[test]
fn read_leaves_any_bench_as_it_was() {
    let mut random = Random::new(51);
    let mut met = [0u32; 4];
    let mut player = Player::new(52, Lengths::Any).without_reads();
    for _ in 0..100 {
        let mut bench = fresh(&player.begin());
        for _ in 0..50 {
            bench.play(&player.next_call(&bench));
            let before = bench.clone();
            let octets = octets_to_read(&mut random);
            let (outcome, expected) = (bench.play(&Call::Read(octets.clone())), reading_of(&octets));
            assert_eq!(bench, before);
            assert_eq!(outcome, expected, "{octets:02X?}");
            let kinds = [!expected.taken(), expected.drop, expected.rfu != 0, expected == Outcome::default()];
            met.iter_mut().zip(kinds).for_each(|(met, is)| *met += u32::from(is));
        }
    }
    assert!(met.iter().all(|times| *times > 100), "refused, dropped, with bits, without: {met:?}");
}

/// A list with reads between its calls is the list without them.
#[test]
fn reads_change_no_answer_of_a_list() {
    let calls =
        [opening(1), vec![Call::Send { conn: 2, message: vec![1] }, Call::Push(2), Call::Down]].concat();
    let (mut one, mut other) = (fresh(PROFILE), fresh(PROFILE));
    for call in &calls {
        assert_eq!(one.play(call), other.play(call));
        taken(other.play(&Call::Read(octets("60 C6 03 01 02 02"))));
        assert_eq!(one, other);
    }
}

/// Read is none of the calls of demand 3, and packets from fresh on have no such bits.
#[test]
fn the_observer_takes_neither_a_read_nor_reserved_bits() {
    let event = |call, rfu| Event { call, outcome: Outcome { rfu, ..Outcome::default() } };
    let fault = |event| Observer::new().see(&event).unwrap_err();
    assert!(fault(event(Call::Read(vec![0x20, 0, 0]), 0)).contains("none of the calls"));
    assert!(fault(event(Call::Power, 0xC0)).contains("reserved bits C0"));
    Observer::new().see(&event(Call::Power, 0)).unwrap();
}

/// Octets of every kind are among those that random lists read.
#[test]
fn random_reads_meet_every_kind_of_octets() {
    let mut random = Random::new(53);
    let mut kinds = [[0u32; 3]; 8];
    let mut lengths = [false; 300];
    for _ in 0..20_000 {
        let octets = octets_to_read(&mut random);
        lengths[octets.len().min(299)] = true;
        let outcome = Bench::read(&octets);
        if let (Some(first), true) = (octets.first(), outcome.taken()) {
            let kind = if outcome.drop { 0 } else { 1 + usize::from(outcome.rfu != 0) };
            kinds[usize::from(first >> 5)][kind] += 1;
        }
    }
    assert!([0, 1, 2, 3, 257, 258, 259, 260, 299].iter().all(|length| lengths[*length]));
    assert!(kinds[..4].iter().flatten().all(|met| *met > 0), "{kinds:?}");
    assert!(kinds[4..].iter().all(|[dropped, plain, bits]| *dropped > 0 && plain + bits == 0), "{kinds:?}");
}
