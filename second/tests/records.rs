//! States that no list of calls makes: document 01's rules hold for every record.
//!
//! Some of them do not arise here. A connection that is closed at an end has no
//! numbers at that end, so there is no count of credits owed or held that a closed
//! connection could keep, and no message in its hand. A message in hand has its
//! octets and how many of them have gone, so all may have gone and the message
//! still be in hand; more than all cannot. The endpoint's message is the
//! controller's own and may be in hand while connection 0 is closed. Counts above
//! the grant are taken here as they come; where a record rests in octets, refusal
//! 1 keeps them out.

mod common;
use common::*;
use exam_bench::bench::{Bench, WIRE_SLOTS};
use exam_bench::call::Outcome;
use exam_bench::connection::CONN_IDS;
use exam_bench::controller::STORE_PACKETS;
use exam_bench::player::{Lengths, Player, Random};

const NO_FLOW_CONTROL: u8 = 255;

/// What a connection may be at the controller, and what it is owed then.
const SIDES: [(Option<(u8, u8)>, u8); 4] =
    [(None, 0), (Some((NO_FLOW_CONTROL, 7)), 0), (Some((8, 0)), 0), (Some((8, 3)), 3)];

/// Each of the five connections as each of `SIDES`, with what is owed on it.
fn owing_benches() -> Vec<(Bench, [u8; 5])> {
    let bench_of = |number: usize| {
        let mut bench = ready(PROFILE);
        let mut owed = [0; 5];
        for (place, conn) in CONN_IDS.iter().enumerate() {
            let (side, amount) = SIDES[number / SIDES.len().pow(place as u32) % SIDES.len()];
            if let Some((grant, count)) = side {
                bench.forge_owing(*conn, grant, count);
            }
            owed[place] = amount;
        }
        (bench, owed)
    };
    (0..SIDES.len().pow(5)).map(bench_of).collect()
}

/// The notice of what is owed, written out.
fn notice(owed: [u8; 5]) -> Vec<u8> {
    let entries: Vec<[u8; 2]> =
        CONN_IDS.iter().zip(owed).filter(|(_, n)| *n > 0).map(|(conn, n)| [*conn, n]).collect();
    let count = entries.len() as u8;
    [&[0x60, 0x06, 1 + 2 * count, count][..], &entries.concat()].concat()
}

// Credits owed

#[test]
fn credit_pays_only_open_connections_with_flow_control() {
    for (bench, owed) in owing_benches() {
        if owed == [0; 5] {
            refuses(&bench, 8, |bench| bench.credit());
            continue;
        }
        let mut paid = bench.clone();
        assert_eq!(taken(paid.credit()).up, [notice(owed)]);
        refuses(&paid, 8, |bench| bench.credit());
        // The counts of the others stay as they are.
        for (conn, n) in CONN_IDS.iter().zip(owed) {
            let (before, after) = (bench.controller().connection(*conn), paid.controller().connection(*conn));
            assert_eq!(before == after, n == 0);
        }
    }
}

#[test]
fn report_tells_what_credit_would_pay() {
    for (bench, owed) in owing_benches() {
        for (conn, n) in CONN_IDS.iter().zip(owed) {
            match bench.controller().connection(*conn) {
                Some(_) => assert_eq!(report(&bench, *conn)[3], n),
                None => refuses(&bench, 6, |bench| bench.report(*conn)),
            }
        }
    }
}

#[test]
fn a_connection_that_closes_owes_nothing_and_the_next_holder_of_its_id_neither() {
    let mut bench = loopbacks(PROFILE, 2);
    bench.forge_owing(2, 2, 1);
    bench.forge_owing(3, 2, 2);
    command(&mut bench, 0, 5, &[2]);
    assert_eq!(takes(&bench, |bench| bench.credit()).up, packets("60 06 03 01 03 02"));
    for _ in 0..3 {
        command(&mut bench, 0, 4, &[1, 0]);
    }
    assert_eq!(report(&bench, 2), [2, 0, 0, 0, 0]);
    assert_eq!(takes(&bench, |bench| bench.credit()).up, packets("60 06 03 01 03 02"));
}

#[test]
fn without_flow_control_consume_leaves_the_count_alone() {
    for count in [0, 1, 254, 255] {
        let mut bench = ready(PROFILE);
        bench.forge_owing(2, NO_FLOW_CONTROL, count);
        let before = bench.clone();
        bench.forge_stored(2, &[2, 0, 0]);
        taken(bench.consume(2));
        assert_eq!(bench.controller(), before.controller());
        refuses(&bench, 8, |bench| bench.credit());
    }
}

#[test]
fn a_notice_has_all_that_is_owed_and_one_of_over_8_has_no_effect_at_the_host() {
    let mut bench = loopbacks(PROFILE, 1);
    bench.forge_owing(2, 200, 150);
    assert_eq!(taken(bench.credit()).up, packets("60 06 03 01 02 96"));
    assert_eq!(report(&bench, 2), [2, 0, 0, 0, 0]);
    assert!(!taken(bench.up()).drop);
    assert_eq!(report(&bench, 2), [2, 0, 0, 0, 0]);
}

// Credits held

#[test]
fn the_first_number_is_0_until_the_host_has_the_connection_open() {
    for conn in CONN_IDS {
        for grant in [1, 8, 200] {
            let mut bench = ready(PROFILE);
            bench.forge_owing(conn, grant, 1);
            assert_eq!(report(&bench, conn), [0, 0, 0, 1, 0]);
            bench.forge_holding(conn, grant, 1);
            assert_eq!(report(&bench, conn), [1, 0, 0, 1, 0]);
        }
    }
}

#[test]
fn the_first_number_is_255_without_flow_control_at_the_controller_whatever_the_host_holds() {
    for conn in CONN_IDS {
        let mut bench = ready(PROFILE);
        bench.forge_owing(conn, NO_FLOW_CONTROL, 9);
        assert_eq!(report(&bench, conn), [255, 0, 0, 0, 0]);
        for (grant, held) in [(8, 0), (8, 3), (NO_FLOW_CONTROL, 0), (NO_FLOW_CONTROL, 200)] {
            bench.forge_holding(conn, grant, held);
            assert_eq!(report(&bench, conn), [255, 0, 0, 0, 0]);
        }
    }
}

// Credits on the up wire

#[test]
fn an_opening_without_flow_control_counts_as_0_on_the_up_wire() {
    for (conn, unlimited, eight) in [
        (0, "61 05 0B 01 01 04 00 04 FF 00 00 00 00 00", "61 05 0B 01 01 04 00 04 08 00 00 00 00 00"),
        (2, "40 04 04 00 04 FF 02", "40 04 04 00 04 08 02"),
        (5, "40 04 04 00 04 FF 05", "40 04 04 00 04 08 05"),
    ] {
        let mut bench = ready(PROFILE);
        bench.forge_owing(conn, 8, 0);
        bench.forge_up(&octets(unlimited));
        assert_eq!(report(&bench, conn), [0, 0, 0, 0, 0]);
        bench.forge_up(&octets(eight));
        assert_eq!(report(&bench, conn), [0, 0, 0, 0, 8]);
        fill_with(&mut bench, unlimited);
        assert_eq!(report(&bench, conn), [0, 0, 0, 0, 8]);
    }
}

fn fill_with(bench: &mut Bench, packet: &str) {
    while bench.up_wire().len() < full() {
        bench.forge_up(&octets(packet));
    }
}

#[test]
fn all_that_the_up_wire_can_carry_fits_the_fifth_number() {
    for (conn, most) in [(0, "61 05 0B 01 01 04 00 04 08 00 00 00 00 00"), (3, "60 06 03 01 03 08")] {
        let mut bench = ready(PROFILE);
        bench.forge_owing(conn, 8, 0);
        fill_with(&mut bench, most);
        assert_eq!(report(&bench, conn), [0, 0, 0, 0, 128]);
    }
}

// Sums modulo 256, whatever the grant

const GRANTS: [u8; 5] = [0, 1, 8, 200, 254];

fn modulo_256(count: u8, more: u8) -> u8 {
    ((u16::from(count) + u16::from(more)) % 256) as u8
}

/// The bench after up has taken this packet: nothing is another but what is held on 2.
fn check_read(bench: &Bench, packet: &[u8], drop: bool, grant: u8, held: u8) {
    let (mut read, mut due) = (bench.clone(), bench.clone());
    read.forge_up(packet);
    assert_eq!(taken(read.up()).drop, drop);
    due.forge_holding(2, grant, held);
    assert_eq!(read, due);
}

#[test]
fn credits_that_the_host_reads_are_added_modulo_256() {
    for grant in GRANTS {
        for held in 0..=255u8 {
            for credits in 1..=8u8 {
                let mut bench = ready(PROFILE);
                bench.forge_holding(2, grant, held);
                bench.forge_holding(3, NO_FLOW_CONTROL, held);
                // 4 is not open.
                let notice = [0x60, 0x06, 0x07, 3, 2, credits, 3, credits, 4, credits];
                check_read(&bench, &notice, true, grant, modulo_256(held, credits));
                let data = [0x02, credits % 4, 0];
                check_read(&bench, &data, false, grant, modulo_256(held, credits % 4));
            }
        }
    }
}

#[test]
fn five_credits_to_254_held_leave_3() {
    let mut bench = ready(PROFILE);
    bench.forge_holding(2, 254, 254);
    bench.forge_owing(2, 254, 0);
    bench.forge_up(&octets("60 06 03 01 02 05"));
    bench.forge_up(&octets("02 03 01 AA"));
    assert_eq!(report(&bench, 2), [254, 0, 0, 0, 8]);
    assert_eq!(taken(bench.up()), Outcome::default());
    assert_eq!(report(&bench, 2), [3, 0, 0, 0, 3]);
    taken(bench.up());
    assert_eq!(report(&bench, 2), [6, 0, 0, 0, 0]);
}

#[test]
fn a_packet_consumed_is_added_modulo_256() {
    for grant in GRANTS {
        for owed in 0..=255u8 {
            let mut bench = ready(PROFILE);
            bench.forge_owing(0, grant, owed);
            let mut due = bench.clone();
            due.forge_owing(0, grant, modulo_256(owed, 1));
            bench.forge_stored(0, &[0, 0, 1, 7]);
            assert_eq!(taken(bench.consume(0)).message, Some(vec![7]));
            assert_eq!(bench, due);
        }
    }
}

// Messages in hand

#[test]
fn reply_sends_the_endpoint_s_message_also_while_0_is_closed() {
    for (name, mut bench) in rf_states() {
        let open = bench.controller().connection(0).is_some();
        assert_eq!(open, name.ends_with("_ACTIVE"), "{name}");
        bench.forge_endpoint_message(&[7; 256], 0);
        refuses(&bench, 7, |bench| bench.air(&[8, 1]));
        let first = [&[0x10, 0, 255][..], &[7; 255]].concat();
        assert_eq!(taken(bench.reply()).up, [first], "{name}");
        assert_eq!(taken(bench.reply()).up, packets("00 00 01 07"), "{name}");
        refuses(&bench, 8, |bench| bench.reply());
        assert_eq!(bench.controller().connection(0).is_some(), open);
    }
}

#[test]
fn an_activation_begins_with_no_message_of_the_endpoint() {
    let mut bench = ready(PROFILE);
    taken(bench.command(1, 3, &[1, 0, 1]));
    taken(bench.down());
    taken(bench.up());
    bench.forge_endpoint_message(&[7; 3], 0);
    taken(bench.air(&[2, 1, 4, 0]));
    refuses(&bench, 8, |bench| bench.reply());
}

#[test]
fn an_endpoint_s_message_of_which_all_has_gone_is_one_bare_header() {
    for length in [1, 255, 256, 1024] {
        for mut bench in [ready(PROFILE), active(PROFILE, 0)] {
            bench.forge_endpoint_message(&vec![7; length], length);
            assert_eq!(taken(bench.reply()).up, packets("00 00 00"));
            refuses(&bench, 8, |bench| bench.reply());
        }
    }
}

#[test]
fn a_message_in_hand_of_which_all_has_gone_is_one_bare_header_and_costs_its_credit() {
    for length in [1, 4, 5, 1024] {
        let mut bench = loopbacks(PROFILE, 1);
        bench.forge_in_hand(2, &vec![7; length], length);
        refuses(&bench, 7, |bench| bench.send(2, &[1]));
        assert_eq!(taken(bench.push(2)).down, packets("02 00 00"));
        assert_eq!(report(&bench, 2), [1, 1, 0, 0, 0]);
        refuses(&bench, 8, |bench| bench.push(2));
        takes(&bench, |bench| bench.send(2, &[1]));
    }
}

#[test]
fn a_message_in_hand_goes_on_from_where_it_is() {
    let message: Vec<u8> = (0..10).collect();
    for gone in 0..=10 {
        let mut bench = loopbacks(UNLIMITED, 1);
        bench.forge_in_hand(2, &message, gone);
        let mut sent = Vec::new();
        while bench.host().connection(2).unwrap().has_message_in_hand() {
            sent.extend_from_slice(&taken(bench.push(2)).down[0][3..]);
        }
        assert_eq!(sent, message[gone..]);
        assert_eq!(bench.down_wire().len(), (10 - gone).div_ceil(4).max(1));
    }
}

// A rejected close

#[test]
fn a_rejected_close_leaves_the_connection_open_at_the_host() {
    for conn in CONN_IDS {
        for status in 1..=255 {
            let mut bench = ready(PROFILE);
            bench.forge_holding(conn, 8, 3);
            bench.forge_in_hand(conn, &[1; 9], 4);
            let host = bench.host().clone();
            taken(bench.command(0, 5, &[conn]));
            bench.forge_up(&[0x40, 0x05, 0x01, status]);
            assert!(!taken(bench.up()).drop);
            assert_eq!(bench.host(), &host);
        }
    }
}

#[test]
fn a_close_that_the_controller_rejects_leaves_what_only_the_host_has_open() {
    let mut bench = ready(PROFILE);
    bench.forge_holding(4, 8, 3);
    assert_eq!(command(&mut bench, 0, 5, &[4]), packets("40 05 01 01"));
    takes(&bench, |bench| bench.send(4, &[1]));
}

// Any numbers at all

/// Makes one number of the bench another one, or puts a notice up.
fn forge_any(bench: &mut Bench, random: &mut Random) {
    let conn = random.pick(&CONN_IDS);
    let grant = random.pick(&[1, 2, 8, 200, 254, NO_FLOW_CONTROL]);
    let (any, near_256, credits) = (random.octet(), 255 - random.octet() % 8, 1 + random.octet() % 8);
    let count = random.pick(&[any, near_256]);
    let message = random.octets(300);
    let gone = random.below(message.len() + 1);
    match random.below(6) {
        0 => bench.forge_owing(conn, grant, count),
        1 => bench.forge_holding(conn, grant, count),
        2 => bench.forge_endpoint_message(&message, gone),
        3 if bench.host().connection(conn).is_some() => bench.forge_in_hand(conn, &message, gone),
        4 if has_room(bench, conn) => bench.forge_stored(conn, &[conn, 0, 0]),
        5 if bench.up_wire().len() < WIRE_SLOTS => bench.forge_up(&[0x60, 0x06, 3, 1, conn, credits]),
        _ => {}
    }
}

fn has_room(bench: &Bench, conn: u8) -> bool {
    bench.controller().connection(conn).is_some_and(|open| open.stored() < STORE_PACKETS)
}

/// The numbers of a report where an end or flow control is missing.
fn check_report(bench: &Bench, conn: u8) {
    let Some(open) = bench.controller().connection(conn) else {
        return refuses(bench, 6, |bench| bench.report(conn));
    };
    let numbers = report(bench, conn);
    if !open.flow_controlled() {
        assert_eq!([numbers[0], numbers[3], numbers[4]], [255, 0, 0]);
    } else if bench.host().connection(conn).is_none() {
        assert_eq!(numbers[0], 0);
    }
    assert!(numbers[4] <= 128);
}

#[test]
fn any_numbers_in_the_record() {
    let mut random = Random::new(8);
    let mut player = Player::new(9, Lengths::Any);
    // Sums past the grant, by what added to them, and sums past 255.
    let (mut past_grant, mut past_octet) = ([0u32; 3], [0u32; 3]);
    for _ in 0..300 {
        let mut bench = fresh(&player.begin());
        for _ in 0..200 {
            if random.chance(30) {
                forge_any(&mut bench, &mut random);
            }
            let before = bench.clone();
            let call = player.next_call(&before);
            if bench.play(&call).taken() {
                for sum in check_sums(&before, &call, &bench) {
                    past_grant[sum.source as usize] += u32::from(sum.passes_grant());
                    past_octet[sum.source as usize] += u32::from(sum.passes_octet());
                }
            } else {
                assert_eq!(bench, before);
            }
            assert!(bench.down_wire().len() <= WIRE_SLOTS && bench.up_wire().len() <= WIRE_SLOTS);
            CONN_IDS.iter().for_each(|conn| check_report(&bench, *conn));
        }
    }
    assert!(!past_grant.contains(&0), "by notices, data and consume: {past_grant:?}");
    assert!(!past_octet.contains(&0), "by notices, data and consume: {past_octet:?}");
}
