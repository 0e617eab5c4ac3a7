//! The points that were decided where document 01 is open, at the host and in runs
//! of packets.

mod common;
use common::*;

// Connection 0 at the host

#[test]
fn the_deactivation_notification_closes_0_at_the_host_and_its_response_does_not() {
    let mut bench = active(PROFILE, 0);
    answers(&mut bench, 1, 6, &[0]);
    taken(bench.up());
    takes(&bench, |bench| bench.send(0, &[1]));
    taken(bench.up());
    refuses(&bench, 6, |bench| bench.send(0, &[1]));
}

#[test]
fn an_ok_close_response_closes_whatever_the_command_named() {
    let mut bench = active(PROFILE, 0);
    taken(bench.command(0, 5, &[0x10]));
    bench.forge_up(&octets("40 05 01 00"));
    assert!(!taken(bench.up()).drop);
    refuses(&bench, 6, |bench| bench.send(0, &[1]));
    // A Conn ID that isn't there: nothing to close.
    for payload in [&[1][..], &[15], &[]] {
        let mut bench = active(PROFILE, 0);
        taken(bench.command(0, 5, payload));
        bench.forge_up(&octets("40 05 01 00"));
        assert!(!taken(bench.up()).drop);
        takes(&bench, |bench| bench.send(0, &[1]));
    }
}

// Contents never written

#[test]
fn a_response_never_written_leaves_its_command_unanswered() {
    for (gid, oid, never) in [
        (0, 0, "40 00 02 00 00"),
        (0, 0, "40 00 00"),
        (0, 0, "40 00 02 05 00"),
        (0, 1, "40 01 01 00"),
        (0, 1, "40 01 10 00 00 00 00 00 04 00 00 1F 00 00 00 00 01 01 00"),
        (0, 1, "40 01 10 00 00 00 00 00 04 00 00 20 00 00 40 00 01 01 00"),
        (0, 2, "40 02 01 00"),
        (0, 2, "40 02 03 00 01 08"),
        (0, 2, "40 02 02 09 00"),
        (0, 2, "40 02 03 09 02 08"),
        (0, 2, "40 02 04 09 01 08 00"),
        (0, 3, "40 03 01 00"),
        (0, 3, "40 03 05 00 01 08 01 02"),
        (0, 3, "40 03 04 00 01 08 00"),
        (0, 3, "40 03 04 00 01 12 00"),
        (0, 3, "40 03 04 09 01 08 00"),
        (0, 3, "40 03 05 09 01 12 01 00"),
        (0, 3, "40 03 02 09 00"),
        (0, 3, "40 03 05 0A 01 08 01 00"),
        (0, 4, "40 04 01 00"),
        (0, 4, "40 04 04 00 00 02 02"),
        (0, 4, "40 04 04 00 04 09 02"),
        (0, 4, "40 04 04 00 04 02 06"),
        (0, 4, "40 04 04 01 04 02 02"),
        (0, 0x3F, "40 3F 01 00"),
        (1, 3, "41 03 02 00 00"),
    ] {
        let mut bench = active(PROFILE, 0);
        taken(bench.command(gid, oid, &[2]));
        let host = bench.host().clone();
        bench.forge_up(&octets(never));
        assert!(!taken(bench.up()).drop, "{never}");
        assert_eq!(bench.host(), &host, "{never}");
        assert_eq!(bench.up_wire().len(), 0);
        refuses(&bench, 5, |bench| bench.command(0, 0, &[0]));
    }
}

#[test]
fn a_status_other_than_ok_alone_answers_and_does_nothing_else() {
    for status in [1, 5, 6, 9, 0x0A, 0xA0] {
        let known = [(0, 0), (0, 1), (0, 2), (0, 3), (0, 4), (0, 5), (1, 3), (1, 4), (1, 6)];
        for (gid, oid) in known.into_iter().chain([(0, 0x3F)]) {
            let mut bench = active(PROFILE, 0);
            let before = bench.host().clone();
            taken(bench.command(gid, oid, &[0]));
            bench.forge_up(&[0x40 | gid, oid, 1, status]);
            assert!(!taken(bench.up()).drop);
            assert_eq!(bench.host(), &before);
        }
    }
}

/// Whatever the command asked: lists of other IDs, and of other values that there can be.
#[test]
fn a_list_of_parameters_answers_and_does_nothing_else() {
    for written in [
        "40 02 02 00 00",
        "40 02 04 09 02 08 08",
        "40 02 03 09 01 12",
        "40 03 02 00 00",
        "40 03 08 00 02 08 01 01 08 01 00",
        "40 03 07 00 02 20 00 68 01 FE",
        "40 03 06 09 02 12 00 12 00",
        "50 03 02 00 01 | 40 03 03 08 01 01",
    ] {
        let mut bench = active(PROFILE, 0);
        let before = bench.host().clone();
        taken(bench.command(0, octets(&written[..5])[1], &[0]));
        for packet in packets(written) {
            bench.forge_up(&packet);
            assert!(!taken(bench.up()).drop, "{written}");
        }
        assert_eq!(bench.host().unanswered, None, "{written}");
        assert_eq!(bench.host().connections, before.connections);
        assert_eq!(bench.host().control_size, before.control_size);
        takes(&bench, |bench| bench.command(0, 3, &[0]));
    }
}

#[test]
fn a_notification_never_written_has_no_effect() {
    for never in [
        "60 06 00",
        "60 06 01 00",
        "60 06 03 01 00 09",
        "60 06 03 01 00 00",
        "60 06 04 01 00 01 00",
        "60 06 05 02 02 01 00 01",
        "60 06 03 01 06 01",
        "61 05 0B 01 01 04 00 04 01 00 00 00 00 01",
        "61 05 0B 01 01 04 00 04 01 00 80 00 00 00",
        "61 05 0B 01 02 04 00 04 01 00 00 00 00 00",
        "61 06 02 04 00",
        "61 06 02 00 01",
        "61 06 01 00",
        "61 06 03 00 00 00",
        "60 00 05 01 01 20 00 00",
        "60 07 01 A2",
        "60 08 02 05 00",
        "6F 3F 01 00",
    ] {
        let mut bench = active(PROFILE, 0);
        taken(bench.send(0, &[1; 8]));
        taken(bench.push(0));
        let host = bench.host().clone();
        bench.forge_up(&octets(never));
        assert!(!taken(bench.up()).drop, "{never}");
        assert_eq!(bench.host(), &host, "{never}");
    }
}

#[test]
fn notifications_that_tell_the_host_nothing() {
    for written in ["60 00 05 02 01 20 00 00", "60 07 01 A1", "61 03 05 01 04 00 00 02"] {
        let mut bench = active(PROFILE, 0);
        let host = bench.host().clone();
        bench.forge_up(&octets(written));
        assert!(!taken(bench.up()).drop);
        assert_eq!(bench.host(), &host);
    }
}

#[test]
fn commands_and_unawaited_responses_are_dropped_at_the_host() {
    let mut bench = loopbacks(PROFILE, 1);
    for dropped in ["20 00 01 00", "40 00 01 00", "40 05 01 00", "E0 00 00", "40 00 01", "40"] {
        bench.forge_up(&octets(dropped));
        assert!(taken(bench.up()).drop, "{dropped}");
    }
    taken(bench.command(0, 4, &[1, 0]));
    for dropped in ["40 05 01 00", "41 04 04 00 04 02 03", "40 00 01 00"] {
        bench.forge_up(&octets(dropped));
        assert!(taken(bench.up()).drop, "{dropped}");
    }
    refuses(&bench, 5, |bench| bench.command(0, 0, &[0]));
    // Reserved bits of octet 1 are ignored, octets past the length too.
    bench.forge_up(&octets("40 C4 04 00 08 03 05 FF FF"));
    assert!(!taken(bench.up()).drop);
    takes(&bench, |bench| bench.send(5, &[1]));
}

#[test]
fn data_for_a_connection_not_open_at_the_host_is_dropped() {
    let mut bench = ready(PROFILE);
    answers(&mut bench, 0, 4, &[1, 0]);
    taken(bench.up());
    for first in [0x00, 0x01, 0x03, 0x0F, 0x13] {
        bench.forge_up(&[first, 0, 1, 7]);
        assert!(taken(bench.up()).drop);
    }
    bench.forge_up(&[0x02, 0xFC, 1, 7]);
    let up = taken(bench.up());
    assert_eq!((up.drop, up.message), (false, Some(vec![7])));
}

// Credit notices

#[test]
fn an_entry_for_a_closed_connection_sets_the_flag_and_the_others_count() {
    let mut bench = loopbacks(PROFILE, 1);
    taken(bench.send(2, &[1; 8]));
    taken(bench.push(2));
    taken(bench.push(2));
    bench.forge_up(&octets("60 06 05 02 00 08 02 01"));
    assert!(taken(bench.up()).drop);
    assert_eq!(report(&bench, 2)[0], 1);
    bench.forge_up(&octets("60 06 05 02 02 01 05 01"));
    assert!(taken(bench.up()).drop);
    assert_eq!(report(&bench, 2)[0], 2);
}

#[test]
fn an_entry_for_a_connection_without_flow_control_does_nothing() {
    let mut bench = loopbacks(UNLIMITED, 1);
    let host = bench.host().clone();
    bench.forge_up(&octets("60 06 03 01 02 08"));
    assert!(!taken(bench.up()).drop);
    assert_eq!(bench.host(), &host);
}

// Control runs

#[test]
fn another_command_starts_a_new_run_at_the_controller() {
    let mut bench = ready(PROFILE);
    for forged in ["30 04 01 01", "30 05 01 02", "30 04 01 01", "20 04 01 00"] {
        bench.forge_down(&octets(forged));
    }
    for _ in 0..3 {
        let down = taken(bench.down());
        assert_eq!((down.drop, down.up.len()), (false, 0));
    }
    assert_eq!(taken(bench.down()).up, packets("40 04 04 00 04 02 02"));
}

#[test]
fn packets_dropped_by_their_type_neither_join_nor_end_a_run() {
    let mut bench = ready(PROFILE);
    bench.forge_down(&octets("30 04 01 01"));
    taken(bench.down());
    for dropped in ["40 04 01 00", "50 04 01 00", "60 06 01 00", "80 00 00", "20 05 01", "02 00 00"] {
        bench.forge_down(&octets(dropped));
        assert!(taken(bench.down()).drop);
    }
    bench.forge_down(&octets("20 04 01 00"));
    assert_eq!(taken(bench.down()).up, packets("40 04 04 00 04 02 02"));

    let mut bench = ready(PROFILE);
    taken(bench.command(0, 4, &[1, 0]));
    bench.forge_up(&octets("50 04 02 00 04"));
    taken(bench.up());
    for dropped in ["20 00 01 00", "30 04 01 00", "A0 00 00", "02 00 00", "40 04"] {
        bench.forge_up(&octets(dropped));
        assert!(taken(bench.up()).drop);
    }
    bench.forge_up(&octets("40 04 02 02 02"));
    assert!(!taken(bench.up()).drop);
    takes(&bench, |bench| bench.send(2, &[1]));
}

#[test]
fn a_notification_starts_a_new_run_at_the_host() {
    let mut bench = ready(PROFILE);
    taken(bench.command(0, 4, &[1, 0]));
    for forged in ["50 04 02 00 04", "60 07 01 A1", "40 04 02 02 02"] {
        bench.forge_up(&octets(forged));
        // The last is a response of its own, of contents never written.
        assert!(!taken(bench.up()).drop);
    }
    refuses(&bench, 5, |bench| bench.command(0, 0, &[0]));
    refuses(&bench, 6, |bench| bench.send(2, &[1]));
}

#[test]
fn the_last_packet_of_a_run_past_255_is_dropped_not_answered_and_needs_two_slots() {
    let mut bench = ready(PROFILE);
    let part = |first: u8, length: usize| [&[first, 0, length as u8][..], &vec![0; length]].concat();
    bench.forge_down(&part(0x30, 255));
    bench.forge_down(&part(0x30, 1));
    bench.forge_down(&part(0x30, 0));
    bench.forge_down(&part(0x20, 0));
    bench.forge_down(&part(0x20, 1));
    assert!(!taken(bench.down()).drop);
    assert!(taken(bench.down()).drop);
    assert!(taken(bench.down()).drop);
    fill_up(&mut bench, 15);
    refuses(&bench, 4, |bench| bench.down());
    taken(bench.up());
    let last = taken(bench.down());
    assert_eq!((last.drop, last.up.len()), (true, 0));
    // The run ended with it.
    assert_eq!(taken(bench.down()).up.len(), 2);
}

#[test]
fn a_run_past_255_is_dropped_at_the_host() {
    let mut bench = loopbacks(PROFILE, 1);
    let part = |first: u8, length: usize| [&[first, 6, length as u8][..], &vec![1; length]].concat();
    for (forged, drop) in [(part(0x70, 200), false), (part(0x70, 56), true), (part(0x60, 0), true)] {
        bench.forge_up(&forged);
        assert_eq!(taken(bench.up()).drop, drop);
    }
}

// Data runs

/// The credits that its packets carry count all the same.
#[test]
fn a_data_run_past_1024_is_dropped_at_both_ends() {
    let mut bench = loopbacks(&[0x20, 4, 8, 4, 1], 1);
    bench.forge_holding(2, 8, 0);
    let part = |first: u8, length: usize| [&[first, 0, length as u8][..], &vec![1; length]].concat();
    for (forged, drop) in [
        (part(0x12, 255), false),
        (part(0x12, 255), false),
        (part(0x12, 255), false),
        (part(0x12, 255), false),
        (part(0x12, 5), true),
        (part(0x02, 0), true),
    ] {
        bench.forge_down(&forged);
        taken(bench.down());
        let consumed = taken(bench.consume(2));
        assert_eq!((consumed.drop, consumed.message), (drop, None));
        assert_eq!(consumed.up, [[&[forged[0], 1][..], &forged[2..]].concat()]);
        let up = taken(bench.up());
        assert_eq!((up.drop, up.message), (drop, None));
    }
    assert_eq!(report(&bench, 2), [6, 0, 0, 0, 0]);
    bench.forge_down(&part(0x02, 1));
    taken(bench.down());
    assert_eq!(taken(bench.consume(2)).message, Some(vec![1]));
    assert_eq!(taken(bench.up()).message, Some(vec![1]));
}

#[test]
fn runs_of_connections_are_separate() {
    let mut bench = loopbacks(PROFILE, 2);
    for forged in ["12 00 01 AA", "13 00 01 BB", "02 00 01 CC", "03 00 01 DD"] {
        bench.forge_up(&octets(forged));
    }
    let messages: Vec<_> = (0..4).map(|_| taken(bench.up()).message).collect();
    assert_eq!(messages, [None, None, Some(vec![0xAA, 0xCC]), Some(vec![0xBB, 0xDD])]);
}

// Octet for octet

#[test]
fn a_loopback_returns_reserved_bits_as_they_came() {
    let mut bench = loopbacks(PROFILE, 1);
    bench.forge_down(&octets("02 A7 02 11 22"));
    taken(bench.down());
    assert_eq!(taken(bench.consume(2)).up, packets("02 A5 02 11 22"));
}

// A stored packet that the reader drops

#[test]
fn a_stored_packet_that_the_reader_drops_counts_as_consumed() {
    for unreadable in ["80 00 01 11", "02 00 02 11"] {
        let mut bench = loopbacks(PROFILE, 1);
        bench.forge_stored(2, &octets("12 00 01 AA"));
        bench.forge_stored(2, &octets(unreadable));
        taken(bench.consume(2));
        let consumed = taken(bench.consume(2));
        assert_eq!((consumed.drop, consumed.message), (true, None));
        // Its credit is no longer owed, and counts nowhere on the up wire.
        assert_eq!(report(&bench, 2), [2, 0, 0, 0, 1]);
        bench.forge_stored(2, &octets("02 00 01 BB"));
        assert_eq!(taken(bench.consume(2)).message, Some(vec![0xAA, 0xBB]));
    }
}

// The fifth number

#[test]
fn the_fifth_number_counts_only_packets_with_written_contents() {
    let mut bench = loopbacks(&[0x20, 4, 8, 4, 1], 1);
    for never in [
        "60 06 03 01 02 09",
        "70 06 03 01 02 08",
        "60 06 05 02 03 01 02 08",
        "40 04 04 00 04 09 02",
        "50 04 04 00 04 08 02",
        "40 04 04 00 04 08 03",
        "60 06 03 01 02",
        "80 06 03 01 02 08",
    ] {
        bench.forge_up(&octets(never));
    }
    assert_eq!(report(&bench, 2)[4], 0);
    bench.forge_up(&octets("60 06 03 01 02 08"));
    bench.forge_up(&octets("40 04 04 00 04 08 02"));
    assert_eq!(report(&bench, 2)[4], 16);
    let mut bench = loopbacks(&[0x20, 4, 8, 4, 1], 1);
    for _ in 0..16 {
        bench.forge_up(&octets("60 06 03 01 02 08"));
    }
    assert_eq!(report(&bench, 2)[4], 128);
}

#[test]
fn the_second_number_counts_the_connection_s_data_on_the_down_wire() {
    let mut bench = loopbacks(PROFILE, 2);
    for forged in ["02 00 00", "12 FF 01 AA", "03 00 00", "22 00 00", "82 00 00", "02 00 01"] {
        bench.forge_down(&octets(forged));
    }
    assert_eq!(report(&bench, 2)[1], 2);
    assert_eq!(report(&bench, 3)[1], 1);
}
