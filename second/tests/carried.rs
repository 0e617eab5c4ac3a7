//! Credits inside data packets: the two low bits of octet 1, going up (document 02,
//! "Credits inside data packets"; 003, 3.4.3).

mod common;
use common::*;
use exam_bench::bench::Bench;

/// One credit on dynamic connections, eight on the static one.
const EIGHT: &[u8] = &[0x20, 4, 1, 4, 8];

/// So many packets of connection 0 consumed, in a bench with eight credits there.
fn consumed_on_0(packets: usize) -> Bench {
    let mut bench = active(EIGHT, 0);
    taken(bench.send(0, &vec![7; 4 * packets]));
    for _ in 0..packets {
        taken(bench.push(0));
        taken(bench.down());
        assert_eq!(taken(bench.consume(0)).up.len(), 0);
    }
    bench
}

/// The second octet of the packet that the call put up.
fn second_octet(put: &[Vec<u8>]) -> u8 {
    assert_eq!(put.len(), 1);
    put[0][1]
}

// A loopback

#[test]
fn a_message_of_more_packets_than_the_grant_comes_back_without_a_notice() {
    let mut bench = loopbacks(EIGHT, 1);
    let message: Vec<u8> = (0..40).collect();
    taken(bench.send(2, &message));
    for place in 0..10 {
        let down = taken(bench.push(2)).down;
        assert_eq!(second_octet(&down), 0);
        taken(bench.down());
        let up = taken(bench.consume(2)).up;
        assert_eq!((second_octet(&up), &up[0][2..]), (1, &down[0][2..]));
        assert_eq!(report(&bench, 2), [0, 0, 0, 0, 1]);
        refuses(&bench, 8, |bench| bench.credit());
        let handed_out = taken(bench.up()).message;
        assert_eq!(handed_out, (place == 9).then(|| message.clone()));
        assert_eq!(report(&bench, 2), [1, 0, 0, 0, 0]);
    }
}

#[test]
fn a_returned_packet_carries_what_is_owed_and_at_most_three() {
    for owed in 0..8 {
        let mut bench = loopbacks(PROFILE, 1);
        bench.forge_owing(2, 8, owed);
        bench.forge_stored(2, &[2, 0, 0]);
        let carried = (owed + 1).min(3);
        assert_eq!(second_octet(&taken(bench.consume(2)).up), carried);
        assert_eq!(report(&bench, 2), [2, 0, 0, owed + 1 - carried, carried]);
    }
}

/// Past the grant too, and modulo 256: of 256 an octet counts none.
#[test]
fn the_packet_s_own_credit_is_added_before_anything_is_carried() {
    for grant in [1, 2, 8, 254] {
        for owed in 0..=255u8 {
            let mut bench = loopbacks(PROFILE, 1);
            bench.forge_owing(2, grant, owed);
            bench.forge_stored(2, &[2, 0, 0]);
            let sum = (u16::from(owed) + 1) % 256;
            let carried = sum.min(3) as u8;
            assert_eq!(taken(bench.consume(2)).up, [[2, carried, 0]]);
            assert_eq!(report(&bench, 2), [2, 0, 0, sum as u8 - carried, carried]);
        }
    }
}

/// Also of a packet of another type, and of one that the reader drops.
#[test]
fn the_two_bits_are_replaced_whatever_the_stored_packet_is() {
    for (grant, carried) in [(8, 1), (255, 0)] {
        for first in [0x02, 0x12, 0x03, 0x22, 0x42, 0x62, 0x82, 0xFF] {
            for second in 0..=255 {
                let mut bench = loopbacks(PROFILE, 1);
                bench.forge_owing(2, grant, 0);
                bench.forge_stored(2, &[first, second, 1, 0xFF]);
                let up = taken(bench.consume(2)).up;
                assert_eq!(up, [[first, second / 4 * 4 + carried, 1, 0xFF]]);
            }
        }
    }
}

#[test]
fn without_flow_control_nothing_is_carried_and_the_count_stays() {
    for count in [0, 1, 3, 255] {
        let mut bench = loopbacks(UNLIMITED, 1);
        bench.forge_owing(2, 255, count);
        let before = bench.clone();
        bench.forge_stored(2, &[2, 0, 0]);
        assert_eq!(second_octet(&taken(bench.consume(2)).up), 0);
        assert_eq!(bench.controller(), before.controller());
    }
}

#[test]
fn credits_going_down_are_ignored() {
    for second in [0, 1, 2, 3, 0xFF] {
        let mut bench = loopbacks(PROFILE, 1);
        taken(bench.send(2, &[7]));
        taken(bench.push(2));
        bench.forge_down(&[2, second, 0]);
        taken(bench.down());
        taken(bench.down());
        assert_eq!(report(&bench, 2), [1, 0, 2, 0, 0]);
    }
}

// Replies

#[test]
fn a_reply_carries_what_is_owed_on_0_and_at_most_three() {
    for packets in 0..=8 {
        let mut bench = consumed_on_0(packets);
        let mut owed = packets as u8;
        taken(bench.air(&[&[8][..], &[7; 1024]].concat()));
        for _ in 0..5 {
            assert_eq!(report(&bench, 0)[3], owed);
            let carried = owed.min(3);
            assert_eq!(second_octet(&taken(bench.reply()).up), carried);
            owed -= carried;
        }
        assert_eq!(report(&bench, 0)[3..], [0, packets as u8]);
        refuses(&bench, 8, |bench| bench.credit());
        for _ in 0..5 {
            taken(bench.up());
        }
        assert_eq!(report(&bench, 0), [8, 0, 0, 0, 0]);
    }
}

#[test]
fn a_notice_pays_what_a_reply_left() {
    let mut bench = consumed_on_0(5);
    taken(bench.air(&[8]));
    assert_eq!(taken(bench.reply()).up, packets("00 03 00"));
    assert_eq!(report(&bench, 0), [3, 0, 0, 2, 3]);
    assert_eq!(taken(bench.credit()).up, packets("60 06 03 01 00 02"));
    assert_eq!(report(&bench, 0), [3, 0, 0, 0, 5]);
}

#[test]
fn a_reply_carries_nothing_while_0_is_closed_or_without_flow_control() {
    for (name, mut bench) in rf_states() {
        let open = bench.controller().connection(0).is_some();
        bench.forge_endpoint_message(&[7], 0);
        if open {
            bench.forge_owing(0, 255, 5);
        }
        let before = bench.controller().connection(0).cloned();
        assert_eq!(taken(bench.reply()).up, packets("00 00 01 07"), "{name}");
        assert_eq!(bench.controller().connection(0), before.as_ref(), "{name}");
    }
}

#[test]
fn a_reply_carries_nothing_of_another_connection() {
    let mut bench = active(PROFILE, 0);
    bench.forge_owing(2, 8, 5);
    taken(bench.air(&[8]));
    assert_eq!(taken(bench.reply()).up, packets("00 00 00"));
    assert_eq!(report(&bench, 2)[3], 5);
}

// The host

#[test]
fn the_host_adds_credits_up_to_the_grant_past_it_and_modulo_256() {
    for grant in [8, 254] {
        for held in 0..=255u8 {
            for credits in 0..4u8 {
                for first in [0x02, 0x12] {
                    let mut bench = ready(PROFILE);
                    bench.forge_holding(2, grant, held);
                    bench.forge_owing(2, grant, 0);
                    bench.forge_up(&[first, 0xFC | credits, 1, 7]);
                    assert_eq!(report(&bench, 2), [held, 0, 0, 0, credits]);
                    assert!(!taken(bench.up()).drop);
                    let sum = (u16::from(held) + u16::from(credits)) % 256;
                    assert_eq!(report(&bench, 2), [sum as u8, 0, 0, 0, 0]);
                }
            }
        }
    }
}

#[test]
fn credits_of_data_for_a_connection_not_open_at_the_host_are_dropped_with_it() {
    let mut bench = loopbacks(PROFILE, 1);
    let host = bench.host().clone();
    for first in [0x00, 0x01, 0x03, 0x0F, 0x13] {
        bench.forge_up(&[first, 3, 1, 7]);
        assert!(taken(bench.up()).drop);
        assert_eq!(bench.host(), &host);
    }
}

#[test]
fn credits_of_data_without_flow_control_do_nothing() {
    let mut bench = loopbacks(UNLIMITED, 1);
    let held = bench.host().connection(2).unwrap().held();
    bench.forge_up(&[0x02, 3, 1, 7]);
    assert_eq!(taken(bench.up()).message, Some(vec![7]));
    assert_eq!(bench.host().connection(2).unwrap().held(), held);
}

#[test]
fn a_control_packet_carries_none() {
    let mut bench = loopbacks(PROFILE, 1);
    for forged in ["60 07 01 A1", "62 03 01 07", "42 03 01 07", "22 03 01 07", "82 03 01 07"] {
        let held = bench.host().connection(2).unwrap().held();
        bench.forge_up(&octets(forged));
        assert_eq!(report(&bench, 2)[4], 0);
        taken(bench.up());
        assert_eq!(bench.host().connection(2).unwrap().held(), held);
    }
}

// The fifth number

#[test]
fn the_fifth_number_counts_the_connection_s_data_on_the_up_wire() {
    let mut bench = loopbacks(PROFILE, 2);
    for forged in ["02 01 00", "12 02 01 AA", "02 FF 00", "03 01 00", "02 FC 00", "82 03 00", "02 03 01"] {
        bench.forge_up(&octets(forged));
    }
    assert_eq!(report(&bench, 2)[4], 6);
    assert_eq!(report(&bench, 3)[4], 1);
    bench.forge_up(&octets("60 06 05 02 02 08 03 01"));
    assert_eq!(report(&bench, 2)[4], 14);
    assert_eq!(report(&bench, 3)[4], 2);
}
