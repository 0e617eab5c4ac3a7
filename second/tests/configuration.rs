//! CORE_SET_CONFIG and CORE_GET_CONFIG at the controller: document 02, item 5, with the points
//! that were decided where it and 003 are open. What the host makes of the responses is in
//! hearing.rs, what the observer makes of them in diary.rs.

mod common;
use common::*;
use exam_bench::bench::Bench;
use exam_bench::call::Call;
use exam_bench::config::{Values, PARAMETERS};

const SET: u8 = 2;
const GET: u8 = 3;

/// What a set or a get is answered with, and the values after it.
fn configured(bench: &Bench, oid: u8, payload: &[u8]) -> (Vec<u8>, Values) {
    let mut bench = bench.clone();
    let put = answers(&mut bench, 0, oid, payload);
    assert_eq!(put.len(), 1);
    assert_eq!(put[0][..2], [0x40, oid]);
    (put[0][3..].to_vec(), bench.controller().config().clone())
}

/// The answer to a set or a get that changes no value.
fn kept(bench: &Bench, oid: u8, payload: &[u8]) -> Vec<u8> {
    let (answer, values) = configured(bench, oid, payload);
    assert_eq!(values, *bench.controller().config(), "{payload:02X?}");
    answer
}

/// A bench whose parameters all have other values than their defaults: the value of each.
const OTHER_VALUES: [(u8, &[u8]); 15] = [
    (0x08, &[0x01]),
    (0x09, &[0x00]),
    (0x10, &[0xFF]),
    (0x11, &[0x01]),
    (0x13, &[0xFF]),
    (0x14, &[0xFF]),
    (0x18, &[0x02]),
    (0x19, &[0x01]),
    (0x1A, &[0x07]),
    (0x20, &[1, 2, 3, 4, 5, 6, 7, 8, 9, 10, 11, 12, 13, 14, 15]),
    (0x21, &[0x03]),
    (0x28, &[0x01]),
    (0x2A, &[0xCF]),
    (0x2F, &[0x09]),
    (0x68, &[0xFE]),
];

fn set_payload(settings: &[(u8, &[u8])]) -> Vec<u8> {
    let entry = |(id, value): &(u8, &[u8])| [&[*id, value.len() as u8], *value].concat();
    [vec![settings.len() as u8], settings.iter().flat_map(entry).collect()].concat()
}

fn get_payload(ids: &[u8]) -> Vec<u8> {
    [&[ids.len() as u8], ids].concat()
}

/// All parameters set to other values.
fn all_set(mut bench: Bench) -> Bench {
    assert_eq!(command(&mut bench, 0, SET, &set_payload(&OTHER_VALUES)), packets("40 02 02 00 00"));
    bench
}

/// What a get of all parameters shows.
fn shown(bench: &Bench) -> Vec<u8> {
    let (answer, values) = configured(bench, GET, &get_payload(&PARAMETERS.each_ref().map(|known| known.id)));
    assert_eq!(answer[..2], [0, 15]);
    assert_eq!(values, *bench.controller().config());
    answer[2..].to_vec()
}

const DEFAULTS: &str =
    "08 01 00 09 01 08 10 01 00 11 01 00 13 01 00 14 01 08 18 01 01 19 01 00 1A 01 08 20 00 \
                        21 01 00 28 01 00 2A 01 30 2F 01 08 68 01 01";

// The order of judgement

#[test]
fn a_list_cut_short_anywhere_is_a_syntax_error_and_sets_nothing() {
    let whole = set_payload(&OTHER_VALUES[..11]);
    let mut reset = fresh(PROFILE);
    command(&mut reset, 0, 0, &[1]);
    for bench in [fresh(PROFILE), reset, ready(PROFILE), discovery(PROFILE), active(PROFILE, 0x80)] {
        for length in 0..whole.len() {
            assert_eq!(kept(&bench, SET, &whole[..length]), [5], "{length}");
        }
        for (oid, payload) in [
            (SET, &[1][..]),
            (SET, &[1, 0x08]),
            (SET, &[1, 0x12, 1]),
            (SET, &[2, 0x08, 1, 1]),
            (SET, &[1, 0x08, 2, 1]),
            (SET, &[255, 0x12, 0]),
            (GET, &[]),
            (GET, &[1]),
            (GET, &[3, 0x08, 0x09]),
            (GET, &[255, 0x12]),
        ] {
            assert_eq!(kept(&bench, oid, payload), [5], "{payload:02X?}");
        }
    }
    // the longest command has no room for the last octet
    assert_eq!(kept(&ready(PROFILE), SET, &[&[1, 0x20, 253][..], &[7; 252]].concat()), [5]);
    assert_eq!(kept(&ready(PROFILE), GET, &[255; 255]), [5]);
}

#[test]
fn before_init_sets_and_gets_are_semantic_errors() {
    let mut reset = fresh(PROFILE);
    command(&mut reset, 0, 0, &[0]);
    for bench in [fresh(PROFILE), reset] {
        for payload in [&[0][..], &[1, 0x08, 1, 1], &[1, 0x08, 1, 9], &[1, 0x12, 0]] {
            assert_eq!(kept(&bench, SET, payload), [6]);
            assert_eq!(kept(&bench, GET, payload), [6]);
        }
    }
}

#[test]
fn outside_idle_a_set_that_names_a_known_parameter_sets_nothing() {
    for (name, bench) in rf_states() {
        let idle = name == "IDLE";
        for (id, value) in OTHER_VALUES {
            let (answer, values) = configured(&bench, SET, &set_payload(&[(id, value)]));
            assert_eq!(answer, if idle { &[0, 0][..] } else { &[6] }, "{name} {id:02X}");
            assert_eq!(values == *bench.controller().config(), !idle);
            // it is named also by an invalid value, by none, and after an unknown one
            let invalid = [&[1, id, 16][..], &[7; 16]].concat();
            let status = if idle { vec![9, 1, id] } else { vec![6] };
            assert_eq!(kept(&bench, SET, &invalid), status, "{name}");
            assert_eq!(kept(&bench, SET, &[1, id, 0]), if idle { &[0, 0][..] } else { &[6] }, "{name}");
            let answer = configured(&bench, SET, &set_payload(&[(0x12, &[]), (id, value)])).0;
            assert_eq!(answer, if idle { &[9, 1, 0x12][..] } else { &[6] }, "{name}");
        }
        assert_eq!(kept(&bench, SET, &[0, 0x08, 1, 1]), [0, 0], "{name}");
        assert_eq!(kept(&bench, SET, &[1, 0x12, 1, 7, 0x08, 1, 1]), [9, 1, 0x12], "{name}");
        assert_eq!(kept(&bench, SET, &[2, 0xFF, 0, 0x03, 2, 8, 8]), [9, 2, 0xFF, 0x03], "{name}");
    }
}

#[test]
fn a_get_is_answered_in_every_rf_state() {
    for (name, bench) in rf_states() {
        assert_eq!(shown(&bench), octets(DEFAULTS), "{name}");
        assert_eq!(kept(&bench, GET, &[0]), [0, 0], "{name}");
        assert_eq!(kept(&bench, GET, &[2, 0x08, 0x12]), [9, 1, 0x12, 0], "{name}");
        assert_eq!(kept(&bench, GET, &[vec![85], vec![0x08; 85]].concat()), [0x0A], "{name}");
    }
}

// Values

#[test]
fn octets_past_the_list_are_ignored() {
    let bench = ready(PROFILE);
    assert_eq!(kept(&bench, SET, &[0, 0x08, 1, 1]), [0, 0]);
    let (answer, values) = configured(&bench, SET, &[1, 0x08, 1, 1, 0x11, 1, 1]);
    assert_eq!(answer, [0, 0]);
    assert_eq!((values.of(0x08), values.of(0x11)), (Some(&[1][..]), Some(&[0][..])));
    assert_eq!(kept(&bench, GET, &[0, 0x12]), [0, 0]);
    assert_eq!(kept(&bench, GET, &[1, 0x08, 0x12, 0x13]), [0, 1, 0x08, 1, 0]);
}

/// Every ID without octets, with one of each value, and with numbers of octets about each limit.
#[test]
fn each_value_is_set_or_invalid() {
    let bench = all_set(ready(PROFILE));
    for id in 0..=255 {
        let known = OTHER_VALUES.iter().find(|(known, _)| *known == id);
        assert_eq!(known.is_some(), PARAMETERS.iter().any(|parameter| parameter.id == id));
        let check = |value: &[u8], accepted: bool| {
            let (answer, values) = configured(&bench, SET, &set_payload(&[(id, value)]));
            assert_eq!(answer, if accepted { vec![0, 0] } else { vec![9, 1, id] }, "{id:02X} {value:02X?}");
            let due = if accepted { value } else { known.map_or(&[][..], |(_, value)| value) };
            assert!(value.is_empty() || values.of(id).unwrap_or_default() == due, "{id:02X} {value:02X?}");
        };
        check(&[], known.is_some());
        for octet in 0..=255 {
            check(&[octet], known.is_some() && is_value(id, octet));
        }
        for length in [2, 14, 15, 16, 17, 251, 252] {
            check(&vec![1; length], id == 0x20 && length <= 15);
        }
    }
}

/// What one octet may be, from the tables of 003.
fn is_value(id: u8, octet: u8) -> bool {
    match id {
        0x08 | 0x11 | 0x19 | 0x28 => octet < 2,
        0x18 => octet == 1 || octet == 2,
        0x21 => octet < 4,
        0x68 => octet < 7 || octet == 0x20 || (0x80..0xFF).contains(&octet),
        _ => true,
    }
}

#[test]
fn length_0_restores_one_default() {
    let bench = all_set(ready(PROFILE));
    for parameter in &PARAMETERS {
        let (answer, values) = configured(&bench, SET, &[1, parameter.id, 0]);
        assert_eq!(answer, [0, 0]);
        for (id, value) in OTHER_VALUES {
            let due = if id == parameter.id { parameter.default } else { value };
            assert_eq!(values.of(id), Some(due), "{id:02X}");
        }
    }
}

#[test]
fn invalid_parameters_are_listed_in_the_order_given_and_all_others_set() {
    let bench = ready(PROFILE);
    let payload = set_payload(&[
        (0x68, &[0x07]),
        (0x08, &[1]),
        (0x12, &[0]),
        (0x18, &[2]),
        (0x08, &[2]),
        (0x12, &[]),
        (0x03, &[1]),
        (0x29, &[1, 2, 3]),
        (0x20, &[9; 16]),
        (0x2F, &[0, 0]),
    ]);
    let (answer, values) = configured(&bench, SET, &payload);
    assert_eq!(answer, [9, 8, 0x68, 0x12, 0x08, 0x12, 0x03, 0x29, 0x20, 0x2F]);
    let mut due = Values::defaults();
    assert!(due.set(0x08, &[1]) && due.set(0x18, &[2]));
    assert_eq!(values, due);
}

#[test]
fn repeated_in_one_set_the_last_accepted_stays() {
    let bench = ready(PROFILE);
    for (values, due) in [
        (&[&[1][..], &[2], &[3]][..], &[3][..]),
        (&[&[3], &[], &[9, 9]], &[8]),
        (&[&[], &[4]], &[4]),
        (&[&[4], &[5, 5]], &[4]),
        (&[&[4], &[5, 5], &[6], &[7, 7]], &[6]),
    ] {
        let settings: Vec<(u8, &[u8])> = values.iter().map(|value| (0x2F, *value)).collect();
        let (answer, after) = configured(&bench, SET, &set_payload(&settings));
        let invalid = values.iter().filter(|value| value.len() > 1).count();
        let status = if invalid == 0 { 0 } else { 9 };
        assert_eq!(answer, [vec![status, invalid as u8], vec![0x2F; invalid]].concat());
        assert_eq!(after.of(0x2F), Some(due));
    }
}

#[test]
fn a_set_response_always_fits() {
    let bench = ready(PROFILE);
    let answer = kept(&bench, SET, &[vec![127], [0x12, 0].repeat(127)].concat());
    assert_eq!(answer, [vec![9, 127], vec![0x12; 127]].concat());
    assert_eq!(kept(&bench, SET, &[vec![127], [0x20, 0].repeat(127)].concat()), [0, 0]);
    assert_eq!(kept(&bench, SET, &[vec![1, 0x20, 252], vec![7; 252]].concat()), [9, 1, 0x20]);
}

#[test]
fn a_get_shows_values_in_the_order_asked_and_repeats_them() {
    let bench = all_set(ready(PROFILE));
    let ids = [0x68, 0x08, 0x20, 0x08, 0x2A];
    let due = octets(
        "00 05 68 01 FE 08 01 01 20 0F 01 02 03 04 05 06 07 08 09 0A 0B 0C 0D 0E 0F 08 01 01 2A 01 CF",
    );
    assert_eq!(kept(&bench, GET, &get_payload(&ids)), due);
    let values = OTHER_VALUES.iter().flat_map(|(id, value)| [&[*id, value.len() as u8], *value].concat());
    assert_eq!(shown(&bench), values.collect::<Vec<u8>>());
}

#[test]
fn a_get_of_unknown_parameters_lists_those_alone() {
    let bench = all_set(ready(PROFILE));
    assert_eq!(
        kept(&bench, GET, &get_payload(&[0x08, 0x12, 0x20, 0x03, 0x12])),
        [9, 3, 0x12, 0, 3, 0, 0x12, 0]
    );
    for id in 0..=255 {
        let answer = kept(&bench, GET, &[1, id]);
        let known = OTHER_VALUES.iter().find(|(known, _)| *known == id);
        let due = match known {
            Some((_, value)) => [&[0, 1, id, value.len() as u8], *value].concat(),
            None => vec![9, 1, id, 0],
        };
        assert_eq!(answer, due);
    }
}

/// Decision on a list of unknown IDs that is too long: the status alone, as for values.
#[test]
fn a_get_response_that_would_pass_255_octets_is_a_status_alone() {
    let bench = all_set(ready(PROFILE));
    let mixed = |known: usize, unknown: usize| [vec![0x20; known], vec![0x12; unknown]].concat();
    for (fits, past) in [
        (vec![0x08; 84], vec![0x08; 85]),
        (vec![0x12; 126], vec![0x12; 127]),
        (vec![0x20; 14], vec![0x20; 15]),
        ([vec![0x20; 14], vec![0x08; 5]].concat(), [vec![0x20; 14], vec![0x08; 6]].concat()),
        (mixed(128, 126), mixed(127, 127)),
    ] {
        let answer = kept(&bench, GET, &get_payload(&fits));
        assert!(answer.len() > 250 || answer.len() == 240, "{}", answer.len());
        assert_eq!(kept(&bench, GET, &get_payload(&past)), [0x0A]);
    }
    // a default without octets has room for 126
    let defaults = ready(PROFILE);
    assert_eq!(kept(&defaults, GET, &get_payload(&[0x20; 126])).len(), 254);
    assert_eq!(kept(&defaults, GET, &get_payload(&[0x20; 127])), [0x0A]);
    assert_eq!(kept(&bench, GET, &get_payload(&[0x12; 254])), [0x0A]);
}

// What keeps and restores values

#[test]
fn reset_type_1_power_and_fresh_restore_all_and_type_0_keeps_all() {
    let bench = all_set(ready(PROFILE));
    let other = shown(&bench);
    for (reset_type, due) in [(0, &other), (1, &octets(DEFAULTS))] {
        let mut bench = bench.clone();
        // as the controller answers, not before
        taken(bench.command(0, 0, &[reset_type]));
        assert_eq!(*bench.controller().config(), *all_set(ready(PROFILE)).controller().config());
        taken(bench.down());
        assert_eq!(*bench.controller().config() == Values::defaults(), reset_type == 1);
        read_up(&mut bench);
        command(&mut bench, 0, 1, &[0, 0]);
        assert_eq!(shown(&bench), *due);
    }
    for reset_type in 2..=255 {
        assert_eq!(kept(&bench, 0, &[reset_type]), [5]);
    }
    for call in [Call::Power, Call::Fresh(PROFILE.to_vec())] {
        let mut bench = bench.clone();
        taken(bench.play(&call));
        assert_eq!(*bench.controller().config(), Values::defaults());
    }
}

/// Sets and gets touch no connection, in segments too, and values outlast what happens in the air.
#[test]
fn no_other_call_changes_a_value_and_no_set_or_get_a_connection() {
    let mut bench = all_set(loopbacks(PROFILE, 2));
    let values = bench.controller().config().clone();
    taken(bench.send(2, &[1; 9]));
    taken(bench.push(2));
    let connections = bench.controller().connections.clone();
    let report_before = [report(&bench, 2), report(&bench, 3)];
    let host = bench.host().clone();
    taken(bench.down());
    let stored = bench.controller().connections.clone();
    assert_ne!(stored, connections);
    command(&mut bench, 0, SET, &set_payload(&OTHER_VALUES));
    command(&mut bench, 0, GET, &get_payload(&[0x20, 0x08]));
    command(&mut bench, 0, SET, &[vec![127], [0x12, 0].repeat(127)].concat());
    assert_eq!((&bench.controller().connections, bench.host()), (&stored, &host));
    assert_eq!([report(&bench, 2)[1..3].to_vec(), report(&bench, 3)], [vec![0, 1], report_before[1].clone()]);
    command(&mut bench, 0, 5, &[2]);
    command(&mut bench, 1, 3, &[1, 0, 1]);
    taken(bench.air(&[2, 1, 4, 0]));
    taken(bench.air(&[8, 1]));
    taken(bench.reply());
    read_up(&mut bench);
    command(&mut bench, 1, 6, &[3]);
    assert_eq!(*bench.controller().config(), values);
}
