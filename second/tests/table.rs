//! Document 01's table and examples, and a full course of each kind.

mod common;
use common::*;

#[test]
fn an_empty_message_is_one_bare_header() {
    let mut bench = loopbacks(PROFILE, 1);
    taken(bench.send(2, &[]));
    assert_eq!(taken(bench.push(2)).down, packets("02 00 00"));
    refuses(&bench, 8, |bench| bench.push(2));
}

#[test]
fn octets_01_to_09_are_three_packets() {
    let mut bench = loopbacks(&[0x20, 4, 3, 4, 1], 1);
    taken(bench.send(2, &octets("01 02 03 04 05 06 07 08 09")));
    assert_eq!(taken(bench.push(2)).down, packets("12 00 04 01 02 03 04"));
    assert_eq!(taken(bench.push(2)).down, packets("12 00 04 05 06 07 08"));
    assert_eq!(taken(bench.push(2)).down, packets("02 00 01 09"));
}

#[test]
fn with_two_credits_the_third_packet_waits_for_a_credit() {
    let mut bench = loopbacks(PROFILE, 1);
    taken(bench.send(2, &octets("01 02 03 04 05 06 07 08 09")));
    taken(bench.push(2));
    taken(bench.push(2));
    refuses(&bench, 9, |bench| bench.push(2));
    taken(bench.down());
    taken(bench.consume(2));
    refuses(&bench, 9, |bench| bench.push(2));
    taken(bench.up());
    assert_eq!(taken(bench.push(2)).down, packets("02 00 01 09"));
}

#[test]
fn eight_octets_are_two_packets_the_second_with_pbf_0() {
    let mut bench = loopbacks(PROFILE, 1);
    taken(bench.send(2, &octets("01 02 03 04 05 06 07 08")));
    assert_eq!(taken(bench.push(2)).down, packets("12 00 04 01 02 03 04"));
    assert_eq!(taken(bench.push(2)).down, packets("02 00 04 05 06 07 08"));
    refuses(&bench, 8, |bench| bench.push(2));
}

#[test]
fn create_response() {
    let mut bench = ready(PROFILE);
    assert_eq!(taken(bench.command(0, 4, &[1, 0])).down, packets("20 04 02 01 00"));
    assert_eq!(taken(bench.down()).up, packets("40 04 04 00 04 02 02"));
}

/// A loopback returns each credit with its packet, so none is owed there without a
/// forged record.
#[test]
fn two_credits_to_2() {
    let mut bench = loopbacks(PROFILE, 1);
    bench.forge_owing(2, 2, 2);
    assert_eq!(taken(bench.credit()).up, packets("60 06 03 01 02 02"));
    refuses(&bench, 8, |bench| bench.credit());
}

#[test]
fn unknown_command() {
    let mut bench = ready(PROFILE);
    assert_eq!(taken(bench.command(0, 0x3F, &[])).down, packets("20 3F 00"));
    assert_eq!(taken(bench.down()).up, packets("40 3F 01 05"));
}

#[test]
fn deactivate_in_idle() {
    for deactivation_type in 0..=255 {
        let mut bench = ready(PROFILE);
        assert_eq!(answers(&mut bench, 1, 6, &[deactivation_type]), packets("41 06 01 06"));
    }
}

#[test]
fn closing_0() {
    let mut bench = active(PROFILE, 0);
    assert_eq!(answers(&mut bench, 0, 5, &[0]), packets("40 05 01 01"));
}

#[test]
fn all_owed_in_one_notice_ascending() {
    let mut bench = loopbacks(&[0x20, 4, 8, 4, 1], 4);
    for (conn, owed) in [(5, 3), (0, 1), (3, 2)] {
        bench.forge_owing(conn, 8, owed);
    }
    assert_eq!(taken(bench.credit()).up, packets("60 06 07 03 00 01 03 02 05 03"));
}

#[test]
fn a_loopback_message_comes_back_and_credits_with_it() {
    let mut bench = loopbacks(PROFILE, 1);
    taken(bench.send(2, &[1, 2, 3, 4, 5]));
    assert_eq!(report(&bench, 2), [2, 0, 0, 0, 0]);
    taken(bench.push(2));
    assert_eq!(report(&bench, 2), [1, 1, 0, 0, 0]);
    taken(bench.push(2));
    assert_eq!(report(&bench, 2), [0, 2, 0, 0, 0]);
    taken(bench.down());
    taken(bench.down());
    assert_eq!(report(&bench, 2), [0, 0, 2, 0, 0]);
    let first = taken(bench.consume(2));
    assert_eq!((first.up, first.message), (packets("12 01 04 01 02 03 04"), None));
    assert_eq!(report(&bench, 2), [0, 0, 1, 0, 1]);
    let second = taken(bench.consume(2));
    assert_eq!((second.up, second.message), (packets("02 01 01 05"), Some(vec![1, 2, 3, 4, 5])));
    assert_eq!(report(&bench, 2), [0, 0, 0, 0, 2]);
    refuses(&bench, 8, |bench| bench.credit());
    assert_eq!(taken(bench.up()).message, None);
    assert_eq!(report(&bench, 2), [1, 0, 0, 0, 1]);
    assert_eq!(taken(bench.up()).message, Some(vec![1, 2, 3, 4, 5]));
    assert_eq!(report(&bench, 2), [2, 0, 0, 0, 0]);
}

#[test]
fn the_grant_counts_on_the_up_wire_until_it_is_read() {
    let mut bench = ready(PROFILE);
    answers(&mut bench, 0, 4, &[1, 0]);
    assert_eq!(report(&bench, 2), [0, 0, 0, 0, 2]);
    taken(bench.up());
    assert_eq!(report(&bench, 2), [2, 0, 0, 0, 0]);

    let mut bench = discovery(PROFILE);
    taken(bench.air(&[2, 1, 4, 0]));
    assert_eq!(report(&bench, 0), [0, 0, 0, 0, 1]);
    taken(bench.up());
    assert_eq!(report(&bench, 0), [1, 0, 0, 0, 0]);
}

#[test]
fn without_flow_control_the_first_is_255_and_owed_and_the_last_0() {
    let mut bench = ready(UNLIMITED);
    answers(&mut bench, 0, 4, &[1, 0]);
    assert_eq!(report(&bench, 2), [255, 0, 0, 0, 0]);
    read_up(&mut bench);
    taken(bench.send(2, &[9; 40]));
    for _ in 0..5 {
        taken(bench.push(2));
    }
    taken(bench.down());
    taken(bench.down());
    taken(bench.consume(2));
    assert_eq!(report(&bench, 2), [255, 3, 1, 0, 0]);
    refuses(&bench, 8, |bench| bench.credit());
}

#[test]
fn the_endpoint_s_message_goes_up_in_segments_of_255() {
    let mut bench = active(PROFILE, 0x80);
    let message: Vec<u8> = (0..600).map(|octet| octet as u8).collect();
    taken(bench.air(&[&[8][..], &message].concat()));
    let first = taken(bench.reply()).up;
    assert_eq!(first, [[&octets("10 00 FF")[..], &message[..255]].concat()]);
    taken(bench.reply());
    let last = taken(bench.reply()).up;
    assert_eq!(last, [[&octets("00 00 5A")[..], &message[510..]].concat()]);
    refuses(&bench, 8, |bench| bench.reply());
    assert_eq!(taken(bench.up()).message, None);
    assert_eq!(taken(bench.up()).message, None);
    assert_eq!(taken(bench.up()).message, Some(message));
}

#[test]
fn an_endpoint_s_message_of_510_octets_is_two_packets_and_an_empty_one_a_header() {
    let mut bench = active(PROFILE, 0);
    taken(bench.air(&[&[8][..], &[7; 510]].concat()));
    assert_eq!(taken(bench.reply()).up[0][..3], octets("10 00 FF"));
    assert_eq!(taken(bench.reply()).up[0][..3], octets("00 00 FF"));
    refuses(&bench, 8, |bench| bench.reply());
    taken(bench.air(&[8]));
    assert_eq!(taken(bench.reply()).up, packets("00 00 00"));
    refuses(&bench, 8, |bench| bench.reply());
}

#[test]
fn commands_are_cut_at_32_until_the_init_response_is_read() {
    let mut bench = fresh(&[64, 4, 2, 4, 1]);
    let lengths = |bench: &mut exam_bench::bench::Bench| -> Vec<u8> {
        let packets = taken(bench.clone().command(9, 9, &[1; 65])).down;
        packets.iter().map(|packet| packet[2]).collect()
    };
    assert_eq!(lengths(&mut bench), [32, 32, 1]);
    command(&mut bench, 0, 0, &[1]);
    let init = answers(&mut bench, 0, 1, &[0, 0]);
    assert_eq!(init, packets("40 01 10 00 00 00 00 00 04 00 00 40 00 00 00 00 01 01 00"));
    read_up(&mut bench);
    assert_eq!(lengths(&mut bench), [64, 1]);
    // A refused RESET changes nothing, an OK one cuts at 32 once it is read.
    command(&mut bench, 0, 0, &[2]);
    assert_eq!(lengths(&mut bench), [64, 1]);
    answers(&mut bench, 0, 0, &[0]);
    taken(bench.up());
    assert_eq!(lengths(&mut bench), [32, 32, 1]);
    command(&mut bench, 0, 1, &[0, 0]);
    assert_eq!(lengths(&mut bench), [64, 1]);
    taken(bench.power());
    assert_eq!(lengths(&mut bench), [32, 32, 1]);
}

#[test]
fn a_command_in_segments_is_answered_at_its_last() {
    let mut bench = ready(PROFILE);
    let payload = [&[1, 0][..], &[0xEE; 62]].concat();
    let put = taken(bench.command(0, 4, &payload)).down;
    assert_eq!(put.iter().map(|packet| packet[0]).collect::<Vec<_>>(), [0x30, 0x20]);
    assert_eq!(taken(bench.down()).up, Vec::<Vec<u8>>::new());
    assert_eq!(taken(bench.down()).up, packets("40 04 04 00 04 02 02"));
}

#[test]
fn a_stale_packet_of_one_activation_is_not_charged_to_the_next() {
    let mut bench = active(&[0x20, 4, 2, 4, 2], 0x80);
    taken(bench.send(0, &[1; 8]));
    taken(bench.push(0));
    // The link is lost while the host still has 0 open; it pushes once more.
    taken(bench.air(&[6]));
    taken(bench.push(0));
    refuses(&bench, 6, |bench| bench.report(0));
    refuses(&bench, 14, |bench| bench.air(&[3, 1, 4, 0x80]));
    assert!(taken(bench.down()).drop);
    refuses(&bench, 14, |bench| bench.air(&[3, 1, 4, 0x80]));
    assert!(taken(bench.down()).drop);
    refuses(&bench, 14, |bench| bench.air(&[3, 1, 4, 0x80]));
    taken(bench.up());
    taken(bench.air(&[3, 1, 4, 0x80]));
    taken(bench.up());
    assert_eq!(report(&bench, 0), [2, 0, 0, 0, 0]);
    refuses(&bench, 8, |bench| bench.push(0));
}

#[test]
fn a_close_leaves_no_half_message_for_the_next_holder_of_the_id() {
    let mut bench = loopbacks(&[0x20, 4, 8, 4, 1], 1);
    taken(bench.send(2, &[1; 12]));
    for _ in 0..2 {
        taken(bench.push(2));
        taken(bench.down());
    }
    taken(bench.consume(2));
    taken(bench.up());
    command(&mut bench, 0, 5, &[2]);
    for conn in [3, 4, 5, 2] {
        assert_eq!(command(&mut bench, 0, 4, &[1, 0])[0][6], conn);
    }
    assert_eq!(report(&bench, 2), [8, 0, 0, 0, 0]);
    refuses(&bench, 8, |bench| bench.push(2));
    refuses(&bench, 8, |bench| bench.consume(2));
    taken(bench.send(2, &[2; 3]));
    taken(bench.push(2));
    taken(bench.down());
    assert_eq!(taken(bench.consume(2)).message, Some(vec![2; 3]));
    assert_eq!(taken(bench.up()).message, Some(vec![2; 3]));
}

#[test]
fn reset_closes_all_at_the_controller_and_its_response_at_the_host() {
    let mut bench = loopbacks(PROFILE, 4);
    taken(bench.send(3, &[1]));
    let put = answers(&mut bench, 0, 0, &[1]);
    assert_eq!(put, packets("40 00 01 00 | 60 00 05 02 01 20 00 00"));
    for conn in 2..=5 {
        refuses(&bench, 6, |bench| bench.report(conn));
    }
    // Open at the host still, and on 3 the message is in hand.
    refuses(&bench, 10, |bench| bench.push(3));
    refuses(&bench, 8, |bench| bench.push(2));
    taken(bench.up());
    for conn in 2..=5 {
        refuses(&bench, 6, |bench| bench.send(conn, &[1]));
    }
}

#[test]
fn power_empties_wires_and_closes_all_and_keeps_the_profile() {
    let mut bench = loopbacks(PROFILE, 2);
    taken(bench.send(2, &[1]));
    taken(bench.push(2));
    taken(bench.command(0, 4, &[1, 0]));
    taken(bench.power());
    assert_eq!(bench, fresh(PROFILE));
    taken(bench.fresh(UNLIMITED));
    assert_eq!(bench, fresh(UNLIMITED));
}
