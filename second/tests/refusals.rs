//! Each refusal at its boundary, and the order in which a call's refusals are
//! judged.

mod common;
use common::*;
use exam_bench::bench::Bench;
use exam_bench::call::Call;

const NOT_CONNECTIONS: [u8; 7] = [1, 6, 7, 15, 16, 18, 255];

// fresh

#[test]
fn fresh_refuses_a_profile_outside_its_limits() {
    let bench = loopbacks(PROFILE, 1);
    for profile in
        [[31, 4, 2, 4, 1], [32, 0, 2, 4, 1], [32, 4, 0, 4, 1], [32, 4, 9, 4, 1], [32, 4, 2, 4, 254]]
    {
        refuses(&bench, 3, |bench| bench.fresh(&profile));
    }
    takes(&bench, |bench| bench.fresh(&[255, 255, 8, 1, 255]));
}

#[test]
fn fresh_judges_each_of_eleven_octets() {
    let bench = loopbacks(UNLIKE, 2);
    takes(&bench, |bench| bench.fresh(UNLIKE));
    for place in 0..UNLIKE.len() {
        let mut profile = UNLIKE.to_vec();
        profile[place] = 0;
        refuses(&bench, 3, |bench| bench.fresh(&profile));
    }
}

#[test]
fn fresh_refuses_another_number_of_octets() {
    let bench = loopbacks(PROFILE, 1);
    let ones = [&[32][..], &[1; 299]].concat();
    for count in 0..=300 {
        if count == 5 || count == 11 {
            takes(&bench, |bench| bench.fresh(&ones[..count]));
        } else {
            refuses(&bench, 3, |bench| bench.fresh(&ones[..count]));
        }
    }
}

// command

#[test]
fn command_arguments() {
    let bench = fresh(PROFILE);
    takes(&bench, |bench| bench.command(15, 63, &[1; 255]));
    refuses(&bench, 3, |bench| bench.command(16, 0, &[]));
    refuses(&bench, 3, |bench| bench.command(0, 64, &[]));
    refuses(&bench, 3, |bench| bench.command(0, 0, &[1; 256]));
}

#[test]
fn command_needs_a_slot_for_each_segment() {
    for (length, segments) in [(0, 1), (32, 1), (33, 2), (64, 2), (65, 3), (224, 7), (225, 8), (255, 8)] {
        let mut bench = fresh(PROFILE);
        fill_down(&mut bench, full() - segments);
        let put = takes(&bench, |bench| bench.command(0, 0, &vec![1; length])).down;
        assert_eq!(put.len(), segments);
        fill_down(&mut bench, full() - segments + 1);
        refuses(&bench, 4, |bench| bench.command(0, 0, &vec![1; length]));
    }
}

#[test]
fn a_command_is_unanswered_until_its_response_is_read() {
    let mut bench = fresh(PROFILE);
    taken(bench.command(0, 0, &[0]));
    refuses(&bench, 5, |bench| bench.command(0, 0, &[0]));
    taken(bench.down());
    refuses(&bench, 5, |bench| bench.command(0, 0, &[0]));
    taken(bench.up());
    // The notification is still unread.
    assert_eq!(bench.up_wire().len(), 1);
    takes(&bench, |bench| bench.command(0, 0, &[0]));
}

#[test]
fn order_of_command() {
    let mut bench = fresh(PROFILE);
    taken(bench.command(0, 0, &[0]));
    fill_down(&mut bench, full());
    refuses(&bench, 3, |bench| bench.command(16, 0, &[]));
    refuses(&bench, 4, |bench| bench.command(0, 0, &[]));
}

// send

#[test]
fn send_takes_1024_octets_and_refuses_1025() {
    let bench = loopbacks(PROFILE, 1);
    takes(&bench, |bench| bench.send(2, &[1; 1024]));
    refuses(&bench, 3, |bench| bench.send(2, &[1; 1025]));
    for conn in NOT_CONNECTIONS {
        refuses(&bench, 3, |bench| bench.send(conn, &[1]));
    }
}

#[test]
fn send_needs_the_connection_open_at_the_host_and_nothing_in_hand() {
    let mut bench = ready(PROFILE);
    answers(&mut bench, 0, 4, &[1, 0]);
    refuses(&bench, 6, |bench| bench.send(2, &[1]));
    refuses(&bench, 3, |bench| bench.send(2, &[1; 1025]));
    read_up(&mut bench);
    taken(bench.send(2, &[]));
    refuses(&bench, 7, |bench| bench.send(2, &[1]));
    taken(bench.push(2));
    takes(&bench, |bench| bench.send(2, &[1]));
    for conn in [0, 3, 4, 5] {
        refuses(&bench, 6, |bench| bench.send(conn, &[1]));
    }
}

/// 2 and 3 open, a message in hand on 2.
fn one_in_hand() -> Bench {
    let mut bench = loopbacks(PROFILE, 2);
    taken(bench.send(2, &[1]));
    bench
}

/// What a send answers on 2, 3 and 4.
fn sends(bench: &Bench) -> [u8; 3] {
    [2, 3, 4].map(|conn| bench.clone().send(conn, &[1]).answer)
}

#[test]
fn order_of_send() {
    let mut bench = one_in_hand();
    taken(bench.command(0, 5, &[2]));
    // Without the close it would be 7 on 2, taken on 3, and 6 on the others.
    for conn in [2, 3, 4, 5, 0] {
        refuses(&bench, 15, |bench| bench.send(conn, &[1; 1024]));
        refuses(&bench, 3, |bench| bench.send(conn, &[1; 1025]));
    }
    for conn in NOT_CONNECTIONS {
        refuses(&bench, 3, |bench| bench.send(conn, &[1]));
    }
}

/// Each command with what sends on 2, 3 and 4 answer once its response is read: 7, 0 and
/// 6, as before it, where it closed nothing.
#[test]
fn send_waits_for_the_answer_to_every_reset_and_close() {
    let commands: [(u8, &[u8], [u8; 3]); 11] = [
        (5, &[2], [6, 0, 6]),
        (5, &[3], [7, 6, 6]),
        (5, &[0xF2, 3], [6, 0, 6]),
        (5, &[2; 40], [6, 0, 6]),
        (5, &[4], [7, 0, 6]),
        (5, &[0], [7, 0, 6]),
        (5, &[15], [7, 0, 6]),
        (5, &[], [7, 0, 6]),
        (0, &[0], [6, 6, 6]),
        (0, &[7], [7, 0, 6]),
        (0, &[], [7, 0, 6]),
    ];
    for (oid, payload, after) in commands {
        let mut bench = one_in_hand();
        assert_eq!(sends(&bench), [7, 0, 6]);
        taken(bench.command(0, oid, payload));
        while !bench.down_wire().is_empty() {
            assert_eq!(sends(&bench), [15; 3]);
            taken(bench.down());
        }
        assert_eq!(sends(&bench), [15; 3]);
        taken(bench.up());
        assert_eq!(sends(&bench), after, "OID {oid} {payload:?}");
    }
}

#[test]
fn send_waits_for_a_response_behind_other_packets() {
    let mut bench = loopbacks(PROFILE, 1);
    taken(bench.send(2, &[1]));
    taken(bench.push(2));
    taken(bench.down());
    taken(bench.consume(2));
    answers(&mut bench, 0, 5, &[5]);
    refuses(&bench, 15, |bench| bench.send(2, &[1]));
    assert_eq!(taken(bench.up()).message, Some(vec![1]));
    refuses(&bench, 15, |bench| bench.send(2, &[1]));
    taken(bench.up());
    takes(&bench, |bench| bench.send(2, &[1]));
}

#[test]
fn send_waits_for_no_other_command() {
    for (gid, oid) in [(0, 1), (0, 2), (0, 3), (0, 4), (0, 8), (1, 0), (1, 3), (1, 5), (1, 6), (15, 63)] {
        let mut bench = one_in_hand();
        taken(bench.command(gid, oid, &[1, 0]));
        assert_eq!(sends(&bench), [7, 0, 6], "GID {gid} OID {oid}");
        taken(bench.down());
        assert_eq!(sends(&bench), [7, 0, 6], "GID {gid} OID {oid}");
    }
}

#[test]
fn power_and_fresh_end_a_close_under_way() {
    let fresh = Call::Fresh(PROFILE.to_vec());
    for (oid, end) in [(5, Call::Power), (0, Call::Power), (5, fresh.clone()), (0, fresh)] {
        let mut bench = one_in_hand();
        taken(bench.command(0, oid, &[0]));
        taken(bench.play(&end));
        refuses(&bench, 6, |bench| bench.send(2, &[1]));
        played(&mut bench, &opening(1));
        takes(&bench, |bench| bench.send(2, &[1]));
    }
}

// push

#[test]
fn push_with_the_down_wire_at_15_and_at_16() {
    let mut bench = loopbacks(PROFILE, 1);
    taken(bench.send(2, &[1]));
    fill_down(&mut bench, 15);
    takes(&bench, |bench| bench.push(2));
    fill_down(&mut bench, 16);
    refuses(&bench, 4, |bench| bench.push(2));
}

#[test]
fn sixteen_pushes_fill_the_down_wire() {
    let mut bench = loopbacks(UNLIMITED, 1);
    taken(bench.send(2, &[1; 1024]));
    for _ in 0..16 {
        taken(bench.push(2));
    }
    refuses(&bench, 4, |bench| bench.push(2));
    assert_eq!(report(&bench, 2), [255, 16, 0, 0, 0]);
}

/// A bench on which so many of the refusals of push apply: from the last of the
/// order on, each turn adds the one before it.
#[test]
fn order_of_push() {
    let mut closing = loopbacks(PROFILE, 1);
    taken(closing.send(2, &[1; 12]));
    taken(closing.command(0, 5, &[2]));
    refuses(&closing, 10, |bench| bench.push(2));

    let mut no_credit = loopbacks(PROFILE, 1);
    taken(no_credit.send(2, &[1; 12]));
    taken(no_credit.push(2));
    taken(no_credit.push(2));
    taken(no_credit.command(0, 5, &[2]));
    refuses(&no_credit, 9, |bench| bench.push(2));

    let mut nothing = loopbacks(PROFILE, 1);
    taken(nothing.send(2, &[1; 8]));
    taken(nothing.push(2));
    taken(nothing.push(2));
    taken(nothing.command(0, 0, &[0]));
    refuses(&nothing, 8, |bench| bench.push(2));

    refuses(&nothing, 6, |bench| bench.push(3));
    fill_down(&mut nothing, full());
    refuses(&nothing, 4, |bench| bench.push(3));
    refuses(&nothing, 4, |bench| bench.push(2));
    for conn in NOT_CONNECTIONS {
        refuses(&nothing, 3, |bench| bench.push(conn));
    }
}

#[test]
fn push_waits_for_reset_and_close_of_any_connection_and_for_no_other_command() {
    for (gid, oid, refused) in
        [(0, 0, true), (0, 5, true), (0, 1, false), (0, 4, false), (1, 0, false), (1, 5, false)]
    {
        let mut bench = loopbacks(PROFILE, 1);
        taken(bench.send(2, &[1]));
        taken(bench.command(gid, oid, &[15]));
        if refused {
            refuses(&bench, 10, |bench| bench.push(2));
            taken(bench.down());
            refuses(&bench, 10, |bench| bench.push(2));
            read_up(&mut bench);
        }
        takes(&bench, |bench| bench.push(2));
    }
}

// down

#[test]
fn down_of_a_command_s_last_packet_needs_two_slots() {
    let mut bench = fresh(PROFILE);
    taken(bench.command(9, 9, &[1; 33]));
    fill_up(&mut bench, 16);
    // Not the last packet: it needs none.
    taken(bench.down());
    refuses(&bench, 4, |bench| bench.down());
    taken(bench.up());
    refuses(&bench, 4, |bench| bench.down());
    taken(bench.up());
    assert_eq!(takes(&bench, |bench| bench.down()).up.len(), 1);
}

#[test]
fn down_of_other_packets_needs_no_slot() {
    let mut bench = loopbacks(PROFILE, 1);
    taken(bench.send(2, &[1]));
    taken(bench.push(2));
    bench.forge_down(&octets("40 00 01 00"));
    bench.forge_down(&octets("60 00 00"));
    bench.forge_down(&octets("80 00 00"));
    bench.forge_down(&octets("20 00 01"));
    fill_up(&mut bench, 16);
    assert!(!taken(bench.down()).drop);
    for _ in 0..4 {
        assert!(taken(bench.down()).drop);
    }
    refuses(&bench, 8, |bench| bench.down());
}

#[test]
fn an_eighth_packet_is_stored_and_a_ninth_is_not() {
    let mut bench = loopbacks(UNLIMITED, 2);
    taken(bench.send(2, &[1; 40]));
    for _ in 0..9 {
        taken(bench.push(2));
    }
    taken(bench.send(3, &[1]));
    for _ in 0..8 {
        taken(bench.down());
    }
    assert_eq!(report(&bench, 2), [255, 1, 8, 0, 0]);
    refuses(&bench, 12, |bench| bench.down());
    taken(bench.consume(2));
    taken(bench.down());
    assert_eq!(report(&bench, 2), [255, 0, 8, 0, 0]);
    // Another connection's store is its own.
    taken(bench.push(3));
    taken(bench.down());
    assert_eq!(report(&bench, 3), [255, 0, 1, 0, 0]);
}

#[test]
fn data_for_a_closed_connection_is_dropped_and_not_refused() {
    let mut bench = loopbacks(UNLIMITED, 1);
    for conn in [0, 1, 3, 15] {
        bench.forge_down(&[conn, 0, 0]);
        assert!(taken(bench.down()).drop);
    }
}

// consume

#[test]
fn order_of_consume() {
    let mut bench = active(PROFILE, 0);
    command(&mut bench, 0, 4, &[1, 0]);
    for conn in NOT_CONNECTIONS {
        refuses(&bench, 3, |bench| bench.consume(conn));
    }
    refuses(&bench, 8, |bench| bench.consume(0));
    refuses(&bench, 8, |bench| bench.consume(2));
    refuses(&bench, 6, |bench| bench.consume(3));
    fill_up(&mut bench, 15);
    refuses(&bench, 8, |bench| bench.consume(2));
    fill_up(&mut bench, 16);
    refuses(&bench, 4, |bench| bench.consume(2));
    refuses(&bench, 4, |bench| bench.consume(3));
    refuses(&bench, 3, |bench| bench.consume(6));
    // Connection 0 puts nothing up.
    refuses(&bench, 8, |bench| bench.consume(0));
    taken(bench.send(0, &[1]));
    taken(bench.push(0));
    taken(bench.down());
    taken(bench.consume(0));
    let mut idle = ready(PROFILE);
    fill_up(&mut idle, 16);
    refuses(&idle, 6, |bench| bench.consume(0));
}

#[test]
fn consume_at_the_controller_does_not_wait_for_the_host_to_open() {
    let mut bench = ready(PROFILE);
    answers(&mut bench, 0, 4, &[1, 0]);
    refuses(&bench, 8, |bench| bench.consume(2));
    refuses(&bench, 6, |bench| bench.consume(3));
}

// credit

#[test]
fn order_of_credit() {
    let mut bench = active(PROFILE, 0);
    refuses(&bench, 8, |bench| bench.credit());
    fill_up(&mut bench, 16);
    refuses(&bench, 4, |bench| bench.credit());
    read_up(&mut bench);
    taken(bench.send(0, &[1]));
    taken(bench.push(0));
    taken(bench.down());
    taken(bench.consume(0));
    fill_up(&mut bench, 15);
    takes(&bench, |bench| bench.credit());
    fill_up(&mut bench, 16);
    refuses(&bench, 4, |bench| bench.credit());
}

#[test]
fn credits_of_a_connection_closed_since_are_not_owed() {
    let mut bench = active(PROFILE, 0);
    taken(bench.send(0, &[1]));
    taken(bench.push(0));
    taken(bench.down());
    taken(bench.consume(0));
    takes(&bench, |bench| bench.credit());
    command(&mut bench, 1, 6, &[0]);
    refuses(&bench, 8, |bench| bench.credit());
}

// air, reply

#[test]
fn order_of_air() {
    let mut bench = ready(PROFILE);
    refuses(&bench, 11, |bench| bench.air(&[2, 1, 4, 0]));
    bench.forge_down(&DROPPED);
    refuses(&bench, 11, |bench| bench.air(&[2, 1, 4, 0]));
    fill_up(&mut bench, 16);
    for octets in [&[1, 1, 4, 0, 2][..], &[2, 1, 4, 0], &[3, 1, 4, 0x80], &[4], &[5], &[6], &[7]] {
        refuses(&bench, 4, |bench| bench.air(octets));
    }
    refuses(&bench, 11, |bench| bench.air(&[8]));
    refuses(&bench, 3, |bench| bench.air(&[2, 0, 4, 0]));
    refuses(&bench, 3, |bench| bench.air(&[]));
}

#[test]
fn an_activation_needs_both_wires_empty() {
    for kind in [2, 3] {
        let mode = if kind == 2 { 0 } else { 0x80 };
        let activation = [kind, 1, 4, mode];
        let bench = discovery(PROFILE);
        takes(&bench, |bench| bench.air(&activation));
        let mut down = bench.clone();
        down.forge_down(&DROPPED);
        refuses(&down, 14, |bench| bench.air(&activation));
        let mut up = bench.clone();
        up.forge_up(&DROPPED);
        refuses(&up, 14, |bench| bench.air(&activation));
        fill_up(&mut up, 16);
        refuses(&up, 4, |bench| bench.air(&activation));
    }
}

#[test]
fn the_endpoint_has_one_message_at_a_time_and_needs_no_slot() {
    let mut bench = active(PROFILE, 0);
    fill_up(&mut bench, 16);
    taken(bench.air(&[8]));
    refuses(&bench, 7, |bench| bench.air(&[8]));
    refuses(&bench, 7, |bench| bench.air(&[&[8][..], &[1; 1024]].concat()));
    refuses(&bench, 3, |bench| bench.air(&[&[8][..], &[1; 1025]].concat()));
    refuses(&bench, 4, |bench| bench.reply());
    read_up(&mut bench);
    taken(bench.reply());
    takes(&bench, |bench| bench.air(&[&[8][..], &[1; 1024]].concat()));
}

#[test]
fn order_of_reply() {
    let mut bench = ready(PROFILE);
    refuses(&bench, 8, |bench| bench.reply());
    fill_up(&mut bench, 16);
    refuses(&bench, 4, |bench| bench.reply());
}

// up, report

#[test]
fn up_of_an_empty_wire() {
    refuses(&ready(PROFILE), 8, |bench| bench.up());
}

#[test]
fn order_of_report() {
    let bench = loopbacks(PROFILE, 1);
    for conn in NOT_CONNECTIONS {
        refuses(&bench, 3, |bench| bench.report(conn));
    }
    for conn in [0, 3, 4, 5] {
        refuses(&bench, 6, |bench| bench.report(conn));
    }
    takes(&bench, |bench| bench.report(2));
}

#[test]
fn report_is_of_the_controller_s_opening() {
    let mut bench = loopbacks(PROFILE, 1);
    answers(&mut bench, 0, 5, &[2]);
    // Still open at the host, no longer at the controller.
    refuses(&bench, 6, |bench| bench.report(2));
    refuses(&bench, 8, |bench| bench.push(2));
}

// Credits past the grant, to which no list of calls brings them: no call refuses them

fn three_stored_of_two_granted() -> Bench {
    let mut bench = active(&[0x20, 4, 2, 4, 2], 0);
    for _ in 0..3 {
        bench.forge_down(&[0, 0, 0]);
        taken(bench.down());
    }
    bench
}

#[test]
fn consume_takes_a_packet_past_the_grant() {
    let mut bench = three_stored_of_two_granted();
    for owed in 1..=3 {
        taken(bench.consume(0));
        assert_eq!(report(&bench, 0), [2, 0, 3 - owed, owed, 0]);
    }
    assert_eq!(taken(bench.credit()).up, packets("60 06 03 01 00 03"));
}

#[test]
fn without_flow_control_nothing_is_owed() {
    let mut bench = loopbacks(UNLIMITED, 1);
    for _ in 0..8 {
        bench.forge_down(&[2, 0, 0]);
        taken(bench.down());
    }
    for _ in 0..8 {
        taken(bench.consume(2));
    }
    refuses(&bench, 8, |bench| bench.credit());
}

#[test]
fn up_takes_credits_past_the_grant() {
    let mut bench = loopbacks(PROFILE, 2);
    taken(bench.send(2, &[1]));
    taken(bench.push(2));
    bench.forge_up(&octets("60 06 03 01 02 02"));
    assert!(!taken(bench.up()).drop);
    assert_eq!(report(&bench, 2), [3, 1, 0, 0, 0]);
    // Each entry counts by itself, and the one for a closed connection is dropped.
    bench.forge_up(&octets("60 06 07 03 02 01 03 08 05 01"));
    assert!(taken(bench.up()).drop);
    assert_eq!(report(&bench, 2), [4, 1, 0, 0, 0]);
    assert_eq!(report(&bench, 3), [10, 0, 0, 0, 0]);
    bench.forge_up(&octets("02 03 01 AA"));
    assert_eq!(taken(bench.up()).message, Some(vec![0xAA]));
    assert_eq!(report(&bench, 2), [7, 1, 0, 0, 0]);
}

#[test]
fn up_takes_a_notice_in_segments_past_the_grant_when_it_is_whole() {
    let mut bench = loopbacks(PROFILE, 1);
    bench.forge_up(&octets("70 06 02 01 02"));
    bench.forge_up(&octets("60 06 01 01"));
    taken(bench.up());
    assert_eq!(report(&bench, 2)[0], 2);
    taken(bench.up());
    assert_eq!(report(&bench, 2)[0], 3);
}
