//! The points that were decided where document 01 is open, at the controller and
//! in the air. Points on octet areas and the C interface do not arise here; what
//! the host hears, configuration, refusals and the sheet have their own files.

mod common;
use common::*;
use exam_bench::bench::Bench;
use exam_bench::controller::{Pair, Rf};

/// The controller's answer alone, the bench left as it was.
fn answer_of(bench: &Bench, gid: u8, oid: u8, payload: &[u8]) -> Vec<Vec<u8>> {
    answers(&mut bench.clone(), gid, oid, payload)
}

fn status_of(bench: &Bench, gid: u8, oid: u8, payload: &[u8]) -> u8 {
    let put = answer_of(bench, gid, oid, payload);
    assert_eq!(put[0][..2], [0x40 | gid, oid]);
    if put[0][3] != 0 {
        assert_eq!((put.len(), put[0].len()), (1, 4), "a status other than OK stands alone");
    }
    put[0][3]
}

// Deactivation in DISCOVERY

#[test]
fn deactivation_in_discovery_ignores_the_type() {
    for bench in [discovery(PROFILE), w4_all(PROFILE), w4_select(PROFILE), selected(PROFILE)] {
        for deactivation_type in 0..=255 {
            let mut bench = bench.clone();
            assert_eq!(answers(&mut bench, 1, 6, &[deactivation_type]), packets("41 06 01 00"));
            assert_eq!(bench.controller().rf(), Rf::Idle);
            assert_eq!(bench.controller().pairs(), []);
        }
    }
}

#[test]
fn deactivation_in_listen_sleep() {
    let bench = listen_sleep(PROFILE);
    let mut idle = bench.clone();
    assert_eq!(answers(&mut idle, 1, 6, &[0]), packets("41 06 01 00"));
    assert_eq!(idle.controller().rf(), Rf::Idle);
    for deactivation_type in 1..=255 {
        let mut bench = bench.clone();
        let status = if deactivation_type <= 3 { 6 } else { 5 };
        assert_eq!(answers(&mut bench, 1, 6, &[deactivation_type]), [[0x41, 6, 1, status]]);
        assert_eq!(bench.controller().rf(), Rf::ListenSleep);
    }
}

#[test]
fn a_deactivation_without_type_is_a_syntax_error_in_every_state() {
    for (name, bench) in rf_states() {
        assert_eq!(status_of(&bench, 1, 6, &[]), 5, "{name}");
    }
    assert_eq!(status_of(&fresh(PROFILE), 1, 6, &[]), 5);
}

// Deactivation in the active states

#[test]
fn listen_f_has_no_sleep_and_listen_b_no_sleep_af() {
    for mode in [0x80, 0x81, 0x82, 0x83] {
        for deactivation_type in 0..=4 {
            let mut bench = active(PROFILE, mode);
            let before = bench.controller().rf();
            let put = answers(&mut bench, 1, 6, &[deactivation_type]);
            let rejected = (mode, deactivation_type) == (0x82, 1) || (mode, deactivation_type) == (0x81, 2);
            if rejected || deactivation_type == 4 {
                let status = if rejected { 1 } else { 5 };
                assert_eq!(put, [[0x41, 6, 1, status]]);
                assert_eq!(bench.controller().rf(), before);
                takes(&bench, |bench| bench.report(0));
                read_up(&mut bench);
                takes(&bench, |bench| bench.send(0, &[1]));
                continue;
            }
            assert_eq!(put, [octets("41 06 01 00"), vec![0x61, 6, 2, deactivation_type, 0]]);
            let next = match deactivation_type {
                0 => Rf::Idle,
                3 => Rf::Discovery,
                _ => Rf::ListenSleep,
            };
            assert_eq!(bench.controller().rf(), next);
            refuses(&bench, 6, |bench| bench.report(0));
        }
    }
}

#[test]
fn poll_active_takes_every_type_in_every_mode() {
    for mode in [0, 1, 2, 3, 6] {
        for deactivation_type in 0..=4 {
            let mut bench = active(PROFILE, mode);
            let put = answers(&mut bench, 1, 6, &[deactivation_type]);
            if deactivation_type == 4 {
                assert_eq!(put, packets("41 06 01 05"));
                takes(&bench, |bench| bench.report(0));
                continue;
            }
            assert_eq!(put, [octets("41 06 01 00"), vec![0x61, 6, 2, deactivation_type, 0]]);
            let next = match deactivation_type {
                0 => Rf::Idle,
                3 => Rf::Discovery,
                _ => Rf::W4HostSelect(None),
            };
            assert_eq!(bench.controller().rf(), next);
            refuses(&bench, 6, |bench| bench.report(0));
        }
    }
}

// INIT

#[test]
fn init_response() {
    for control_payload in [32, 33, 255] {
        let mut bench = fresh(&[control_payload, 4, 2, 4, 1]);
        assert_eq!(status_of(&bench, 0, 1, &[0, 0]), 6);
        command(&mut bench, 0, 0, &[1]);
        assert_eq!(status_of(&bench, 0, 1, &[0]), 5);
        let mut response = octets("40 01 10 00 00 00 00 00 04 00 00 20 00 00 00 00 01 01 00");
        response[11] = control_payload;
        assert_eq!(command(&mut bench, 0, 1, &[0xAB, 0xCD, 0xEF]), [response]);
        assert_eq!(status_of(&bench, 0, 1, &[0, 0]), 6);
        // A refused RESET does not open the way for another INIT.
        command(&mut bench, 0, 0, &[2]);
        assert_eq!(status_of(&bench, 0, 1, &[0, 0]), 6);
    }
}

// The rest as document 01 has it

#[test]
fn discover_values() {
    let bench = ready(PROFILE);
    assert_eq!(status_of(&bench, 1, 3, &[0]), 0);
    for mode in 0..=255u8 {
        for frequency in [0, 1, 2, 10, 11, 255] {
            let poll = matches!(mode, 0..=3 | 6) && (1..=10).contains(&frequency);
            let listen = (0x80..=0x83).contains(&mode) && frequency == 1;
            let status = if poll || listen { 0 } else { 1 };
            assert_eq!(status_of(&bench, 1, 3, &[1, mode, frequency]), status, "{mode:02X} {frequency}");
            assert_eq!(status_of(&bench, 1, 3, &[2, 0, 1, mode, frequency, 99]), status);
        }
    }
    for count in [8, 9] {
        let payload = [&[count][..], &[6, 10].repeat(usize::from(count))].concat();
        assert_eq!(status_of(&bench, 1, 3, &payload), if count == 8 { 0 } else { 1 });
        assert_eq!(status_of(&bench, 1, 3, &payload[..payload.len() - 1]), 5);
    }
    assert_eq!(status_of(&bench, 1, 3, &[127; 255]), 1);
    assert_eq!(status_of(&bench, 1, 3, &[128; 255]), 5);
}

#[test]
fn commands_that_the_documents_leave_aside_are_unknown() {
    let known = [(0, 0), (0, 1), (0, 2), (0, 3), (0, 4), (0, 5), (1, 3), (1, 4), (1, 6)];
    for bench in [fresh(PROFILE), ready(PROFILE)] {
        for gid in 0..=15 {
            for oid in 0..=63 {
                if !known.contains(&(gid, oid)) {
                    assert_eq!(status_of(&bench, gid, oid, &[0; 8]), 5, "{gid} {oid}");
                }
            }
        }
    }
}

#[test]
fn an_endpoint_s_message_is_neither_lengthened_nor_shortened() {
    let mut bench = active(PROFILE, 0);
    taken(bench.air(&[8, 0xAA, 0xBB]));
    assert_eq!(taken(bench.reply()).up, packets("00 00 02 AA BB"));
    assert_eq!(taken(bench.up()).message, Some(vec![0xAA, 0xBB]));
}

#[test]
fn closing_0_discards_the_endpoint_s_message() {
    for end in [&[5][..], &[6], &[7]] {
        let mut bench = active(PROFILE, 0x80);
        taken(bench.air(&[8, 1, 2, 3]));
        taken(bench.air(end));
        refuses(&bench, 8, |bench| bench.reply());
    }
    let mut bench = active(PROFILE, 0);
    taken(bench.air(&[8, 1, 2, 3]));
    answers(&mut bench, 1, 6, &[3]);
    refuses(&bench, 8, |bench| bench.reply());
    read_up(&mut bench);
    taken(bench.air(&[2, 1, 4, 0]));
    refuses(&bench, 8, |bench| bench.reply());
    taken(bench.air(&[8]));
    answers(&mut bench, 0, 0, &[0]);
    refuses(&bench, 8, |bench| bench.reply());
}

// CONN_CREATE

#[test]
fn create_takes_01_00_and_rejects_all_else() {
    let bench = ready(PROFILE);
    for payload in [&[][..], &[1]] {
        assert_eq!(status_of(&bench, 0, 4, payload), 5);
    }
    for payload in [&[1, 1][..], &[0, 0], &[2, 0], &[1, 1, 0, 0], &[3, 1, 1, 2, 0x10, 0]] {
        assert_eq!(status_of(&bench, 0, 4, payload), 1);
    }
    assert_eq!(answer_of(&bench, 0, 4, &[1, 0, 9, 9]), packets("40 04 04 00 04 02 02"));
    let four = loopbacks(PROFILE, 4);
    assert_eq!(answer_of(&four, 0, 4, &[1, 0]), packets("40 04 01 01"));
}

// Messages in hand

#[test]
fn a_push_that_is_not_the_last_leaves_the_message_in_hand() {
    let mut bench = loopbacks(PROFILE, 1);
    taken(bench.send(2, &[1; 5]));
    taken(bench.push(2));
    refuses(&bench, 7, |bench| bench.send(2, &[]));
    taken(bench.push(2));
    takes(&bench, |bench| bench.send(2, &[]));
}

#[test]
fn an_empty_message_in_hand_is_in_hand() {
    let mut bench = loopbacks(PROFILE, 1);
    taken(bench.send(2, &[]));
    refuses(&bench, 7, |bench| bench.send(2, &[]));
    taken(bench.push(2));
    taken(bench.down());
    assert_eq!(taken(bench.consume(2)).message, Some(vec![]));
    assert_eq!(taken(bench.up()).message, Some(vec![]));
}

// Conn IDs

#[test]
fn conn_ids_go_round_and_pass_open_ones() {
    fn create(bench: &mut Bench) -> Option<u8> {
        command(bench, 0, 4, &[1, 0])[0].get(6).copied()
    }
    let mut bench = ready(PROFILE);
    assert_eq!(create(&mut bench), Some(2));
    command(&mut bench, 0, 5, &[2]);
    assert_eq!(create(&mut bench), Some(3));
    assert_eq!(command(&mut bench, 0, 4, &[2, 0]), packets("40 04 01 01"));
    assert_eq!(create(&mut bench), Some(4));
    assert_eq!(create(&mut bench), Some(5));
    assert_eq!(create(&mut bench), Some(2));
    assert_eq!(create(&mut bench), None);
    command(&mut bench, 0, 5, &[4]);
    command(&mut bench, 0, 5, &[5]);
    assert_eq!(create(&mut bench), Some(4));
    assert_eq!(create(&mut bench), Some(5));
    command(&mut bench, 0, 5, &[3]);
    assert_eq!(create(&mut bench), Some(3));
    command(&mut bench, 0, 0, &[0]);
    command(&mut bench, 0, 1, &[0, 0]);
    assert_eq!(create(&mut bench), Some(2));
    taken(bench.power());
    command(&mut bench, 0, 0, &[1]);
    command(&mut bench, 0, 1, &[0, 0]);
    assert_eq!(create(&mut bench), Some(2));
}

// CONN_CLOSE

#[test]
fn close_names_its_connection_by_the_low_four_bits() {
    let mut bench = loopbacks(PROFILE, 2);
    assert_eq!(answers(&mut bench, 0, 5, &[0xF3, 2]), packets("40 05 01 00"));
    refuses(&bench, 6, |bench| bench.report(3));
    // Open at the host still.
    refuses(&bench, 8, |bench| bench.push(3));
    taken(bench.up());
    refuses(&bench, 6, |bench| bench.send(3, &[1]));
    takes(&bench, |bench| bench.send(2, &[1]));
    for conn in [0, 1, 3, 4, 5, 6, 15] {
        assert_eq!(status_of(&bench, 0, 5, &[conn]), 1);
    }
    assert_eq!(status_of(&bench, 0, 5, &[]), 5);
}

#[test]
fn a_refused_close_closes_nothing_at_the_host() {
    let mut bench = active(PROFILE, 0);
    command(&mut bench, 0, 5, &[0]);
    takes(&bench, |bench| bench.send(0, &[1]));
}

// The order of judgement

#[test]
fn before_init_unknown_and_short_are_syntax_errors_and_the_rest_semantic() {
    let mut reset = fresh(PROFILE);
    command(&mut reset, 0, 0, &[0]);
    for bench in [fresh(PROFILE), reset] {
        let of_core = [(0, 2, &[1, 9, 1, 9][..]), (0, 3, &[1, 9]), (0, 4, &[9, 9]), (0, 5, &[9])];
        let of_rf = [(1, 3, &[1, 9, 9][..]), (1, 4, &[9, 9, 9]), (1, 6, &[9])];
        for (gid, oid, enough) in of_core.into_iter().chain(of_rf) {
            assert_eq!(status_of(&bench, gid, oid, enough), 6);
            assert_eq!(status_of(&bench, gid, oid, &enough[..enough.len() - 1]), 5);
        }
        assert_eq!(status_of(&bench, 0, 8, &[]), 5);
    }
}

#[test]
fn state_is_judged_before_values_and_length_before_state() {
    for (name, bench) in rf_states() {
        let idle = name == "IDLE";
        assert_eq!(status_of(&bench, 1, 3, &[1, 4, 0]), if idle { 1 } else { 0xA0 }, "{name}");
        assert_eq!(status_of(&bench, 1, 3, &[1, 4]), 5, "{name}");
        assert_eq!(status_of(&bench, 1, 3, &[]), 5, "{name}");
        let selecting = name.starts_with("W4_HOST_SELECT");
        assert_eq!(status_of(&bench, 1, 4, &[99, 99, 99]), if selecting { 1 } else { 6 }, "{name}");
        assert_eq!(status_of(&bench, 1, 4, &[1, 4]), 5, "{name}");
        assert_eq!(answer_of(&bench, 0, 2, &[1, 8, 1, 9])[0][3], if idle { 9 } else { 6 }, "{name}");
        assert_eq!(status_of(&bench, 0, 2, &[1, 8, 1]), 5, "{name}");
        assert_eq!(answer_of(&bench, 0, 3, &[1, 0x12])[0][3], 9, "{name}");
        assert_eq!(status_of(&bench, 0, 3, &[1]), 5, "{name}");
    }
}

#[test]
fn reset_is_taken_in_every_state_and_a_type_over_1_changes_nothing() {
    let states = rf_states().into_iter().map(|state| state.1).chain([fresh(PROFILE), loopbacks(PROFILE, 4)]);
    for bench in states {
        for reset_type in 0..=255 {
            let mut played = bench.clone();
            let put = answers(&mut played, 0, 0, &[reset_type]);
            if reset_type > 1 {
                assert_eq!(put, packets("40 00 01 05"));
                assert_eq!(played.controller(), bench.controller());
                continue;
            }
            assert_eq!(put, [octets("40 00 01 00"), vec![0x60, 0, 5, 2, reset_type, 0x20, 0, 0]]);
            assert_eq!(played.controller().rf(), Rf::Idle);
            assert_eq!(played.controller().pairs(), []);
        }
        assert_eq!(status_of(&bench, 0, 0, &[]), 5);
    }
}

// Pairs and selections

const PAIR_1_4: Pair = Pair { id: 1, protocol: 4 };
const PAIR_2_5: Pair = Pair { id: 2, protocol: 5 };

#[test]
fn a_later_selection_replaces_the_earlier_and_a_rejected_one_keeps_it() {
    let mut bench = selected(PROFILE);
    assert_eq!(bench.controller().rf(), Rf::W4HostSelect(Some(PAIR_1_4)));
    for rejected in [[1, 5, 1], [3, 4, 1], [2, 5, 0], [2, 5, 2]] {
        assert_eq!(command(&mut bench, 1, 4, &rejected), packets("41 04 01 01"));
        assert_eq!(bench.controller().rf(), Rf::W4HostSelect(Some(PAIR_1_4)));
    }
    assert_eq!(command(&mut bench, 1, 4, &[2, 5, 1]), packets("41 04 01 00"));
    assert_eq!(bench.controller().rf(), Rf::W4HostSelect(Some(PAIR_2_5)));
    refuses(&bench, 11, |bench| bench.air(&[2, 1, 4, 0]));
    refuses(&bench, 11, |bench| bench.air(&[2, 2, 4, 0]));
    assert_eq!(taken(bench.air(&[4])).up, packets("60 07 01 A1"));
    assert_eq!(bench.controller().rf(), Rf::W4HostSelect(None));
    refuses(&bench, 11, |bench| bench.air(&[4]));
}

#[test]
fn the_list_stays_through_a_selected_activation_and_sleep() {
    for sleep in [1, 2] {
        let mut bench = selected(PROFILE);
        taken(bench.air(&[2, 1, 4, 6]));
        assert_eq!(bench.controller().pairs(), [PAIR_1_4, PAIR_2_5]);
        read_up(&mut bench);
        command(&mut bench, 1, 6, &[sleep]);
        assert_eq!(bench.controller().rf(), Rf::W4HostSelect(None));
        refuses(&bench, 11, |bench| bench.air(&[2, 1, 4, 6]));
        assert_eq!(status_of(&bench, 1, 4, &[2, 5, 1]), 0);
    }
}

#[test]
fn a_poll_activation_from_discovery_makes_the_list_that_one_pair() {
    let mut bench = active(PROFILE, 0);
    assert_eq!(bench.controller().pairs(), [PAIR_1_4]);
    command(&mut bench, 1, 6, &[1]);
    assert_eq!(status_of(&bench, 1, 4, &[1, 4, 1]), 0);
    assert_eq!(status_of(&bench, 1, 4, &[2, 5, 1]), 1);
}

#[test]
fn type_3_and_listen_activations_leave_the_list_and_a_found_begins_a_new_one() {
    let mut bench = selected(PROFILE);
    taken(bench.air(&[2, 1, 4, 6]));
    read_up(&mut bench);
    command(&mut bench, 1, 6, &[3]);
    assert_eq!(bench.controller().pairs(), [PAIR_1_4, PAIR_2_5]);
    taken(bench.air(&[3, 9, 9, 0x80]));
    read_up(&mut bench);
    taken(bench.air(&[6]));
    read_up(&mut bench);
    assert_eq!(bench.controller().pairs(), [PAIR_1_4, PAIR_2_5]);
    // A repeated pair is none in a new list.
    taken(bench.air(&[1, 1, 4, 0, 2]));
    assert_eq!(bench.controller().pairs(), [PAIR_1_4]);
    taken(bench.air(&[1, 7, 7, 0, 1]));
    assert_eq!(bench.controller().rf(), Rf::W4HostSelect(None));
    command(&mut bench, 1, 6, &[0]);
    assert_eq!(bench.controller().pairs(), []);
}

#[test]
fn repeated_pairs_and_an_eighth_with_more_to_follow_are_not_taken() {
    let mut bench = discovery(PROFILE);
    for notification_type in [0, 1] {
        refuses(&bench, 11, |bench| bench.air(&[1, 1, 4, 0, notification_type]));
    }
    for id in 1..=7 {
        assert_eq!(taken(bench.air(&[1, id, 4, 0, 2])).up, [[0x61, 3, 5, id, 4, 0, 0, 2]]);
        for notification_type in 0..=2 {
            refuses(&bench, 11, |bench| bench.air(&[1, id, 4, 0, notification_type]));
        }
        takes(&bench, |bench| bench.air(&[1, id, 5, 0, 0]));
    }
    refuses(&bench, 11, |bench| bench.air(&[1, 8, 4, 0, 2]));
    for notification_type in [0, 1] {
        takes(&bench, |bench| bench.air(&[1, 8, 4, 0, notification_type]));
    }
    taken(bench.air(&[1, 8, 4, 0, 0]));
    assert_eq!(bench.controller().pairs().len(), 8);
    read_up(&mut bench);
    assert_eq!(status_of(&bench, 1, 4, &[8, 4, 1]), 0);
    refuses(&bench, 11, |bench| bench.air(&[1, 9, 4, 0, 0]));
}

// The air, state by state

#[test]
fn which_state_takes_which_kind() {
    let kinds: [(&[u8], &[&str]); 9] = [
        (&[1, 9, 4, 0, 2], &["DISCOVERY", "W4_ALL_DISCOVERIES"]),
        (&[1, 9, 4, 0, 1], &["W4_ALL_DISCOVERIES"]),
        (&[2, 1, 4, 0], &["DISCOVERY", "W4_HOST_SELECT selected"]),
        (&[3, 1, 4, 0x80], &["DISCOVERY", "LISTEN_SLEEP"]),
        (&[4], &["W4_HOST_SELECT selected"]),
        (&[5], &["LISTEN_ACTIVE"]),
        (&[6], &["LISTEN_ACTIVE", "LISTEN_SLEEP"]),
        (&[7], &["LISTEN_ACTIVE"]),
        (&[8, 1], &["POLL_ACTIVE", "LISTEN_ACTIVE"]),
    ];
    for (name, bench) in rf_states().into_iter().chain([("cold", fresh(PROFILE))]) {
        for (octets, states) in &kinds {
            if states.contains(&name) {
                takes(&bench, |bench| bench.air(octets));
            } else {
                refuses(&bench, 11, |bench| bench.air(octets));
            }
        }
    }
}

#[test]
fn notifications_of_the_air() {
    let mut bench = discovery(&[0x20, 4, 2, 0x20, 0xFF]);
    assert_eq!(
        takes(&bench, |bench| bench.air(&[1, 7, 0xFE, 6, 2, 0xAA, 0xBB])).up,
        packets("61 03 07 07 FE 06 02 AA BB 02")
    );
    assert_eq!(
        takes(&bench, |bench| bench.air(&[2, 7, 0xFE, 6, 0xAA, 0xBB])).up,
        packets("61 05 0D 07 01 FE 06 20 FF 02 AA BB 06 00 00 00")
    );
    assert_eq!(
        taken(bench.air(&[3, 7, 0xFE, 0x82])).up,
        packets("61 05 0B 07 01 FE 82 20 FF 00 82 00 00 00")
    );
    assert_eq!(takes(&bench, |bench| bench.air(&[5])).up, packets("61 06 02 01 01"));
    assert_eq!(takes(&bench, |bench| bench.air(&[6])).up, packets("61 06 02 03 02"));
    assert_eq!(takes(&bench, |bench| bench.air(&[7])).up, packets("61 06 02 03 01"));
}
