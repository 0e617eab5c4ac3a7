//! CORE_SET_CONFIG and CORE_GET_CONFIG on both benches: every value of every parameter, lists at and
//! past their limits, the states that they come in, and what resets, power and fresh leave. What
//! each group came to is counted.

use compare::group::Group;
use compare::made::{rf_state, rf_states, State, COLD, CONFIG, DEFAULTS, OTHERS, READY, RESET};
use compare::record::{AFTER_INFO, BEFORE_INFO, INFO, VALUES};
use exam_bench::call::Call;

const SET: u8 = 2;
const GET: u8 = 3;
/// An ID that no parameter here has: PB_ATTRIB_PARAM1, which is read-only.
const UNKNOWN: u8 = 0x12;

/// The IDs of all parameters.
fn known() -> Vec<u8> {
    [&BEFORE_INFO[..], &[INFO], &AFTER_INFO].concat()
}

/// The parameters of a set.
fn settings(list: &[(u8, Vec<u8>)]) -> Vec<u8> {
    let entry = |(id, value): &(u8, Vec<u8>)| [&[*id, value.len() as u8], &value[..]].concat();
    [vec![list.len() as u8], list.iter().flat_map(entry).collect()].concat()
}

fn ids(list: &[u8]) -> Vec<u8> {
    [&[list.len() as u8], list].concat()
}

/// Defaults, but for a PI_B_H_INFO of so many octets.
fn info_of(length: usize) -> [u8; VALUES] {
    let mut values = DEFAULTS;
    values[BEFORE_INFO.len()] = length as u8;
    values[BEFORE_INFO.len() + 1..][..length].fill(0xA7);
    values
}

// ---- values

/// Every ID, with numbers of octets about each limit, of several values.
#[test]
fn every_id_and_length() {
    let mut group = Group::new("every ID and length of a set");
    let idle = rf_state("idle");
    for id in 0..=255 {
        for length in [0, 1, 2, 15, 16, 252] {
            for octet in [0x00, 0x01, 0x02, 0x03, 0x06, 0x07, 0x20, 0x7F, 0x80, 0xFE, 0xFF] {
                let payload = settings(&[(id, vec![octet; length])]);
                group.command(&idle.configured(&OTHERS, SET, &payload));
            }
        }
    }
    // of length 0 all known ones, of length 1 what each may be, of 2 and 15 PI_B_H_INFO
    let (restored, any) = (15 * 11, 8 * 11);
    let accepted = restored + any + 4 * 2 + 2 + 4 + 8 + 2 * 11;
    group.end(256 * 6 * 11, &[("status 00", accepted), ("status 09", 256 * 6 * 11 - accepted)]);
}

/// Every octet for each parameter, on values that are its default and others.
#[test]
fn every_octet_of_each_parameter() {
    let mut group = Group::new("every octet of each parameter");
    let idle = rf_state("idle");
    for values in [DEFAULTS, OTHERS] {
        for id in known() {
            for octet in 0..=255 {
                group.command(&idle.configured(&values, SET, &[1, id, 1, octet]));
            }
        }
    }
    // eight take every octet, four take two; PF_BIT_RATE two, PI_BIT_RATE four, PACM_BIT_RATE 135
    let accepted = 2 * (8 * 256 + 4 * 2 + 2 + 4 + 135);
    group.end(2 * 15 * 256, &[("status 00", accepted), ("status 09", 2 * 15 * 256 - accepted)]);
}

/// PI_B_H_INFO from each length to each, and what a get then shows of it.
#[test]
fn lengths_of_pi_b_h_info() {
    let mut group = Group::new("lengths of PI_B_H_INFO");
    let idle = rf_state("idle");
    for before in 0..=15 {
        for length in 0..=17 {
            let payload = settings(&[(INFO, (1..=length).collect())]);
            group.command(&idle.configured(&info_of(before), SET, &payload));
        }
        group.command(&idle.configured(&info_of(before), GET, &[3, INFO, 0x08, INFO]));
    }
    group.end(16 * 19, &[("status 00", 16 * 17), ("status 09", 16 * 2)]);
}

// ---- lists

/// A list of all parameters cut at each octet, counted as more and as less than it has, and with
/// octets past it.
#[test]
fn lists_cut_short_and_counted_wrong() {
    let mut group = Group::new("lists cut short and counted wrong");
    let idle = rf_state("idle");
    let all: Vec<(u8, Vec<u8>)> =
        known().iter().map(|id| (*id, vec![1; 1 + usize::from(*id == INFO)])).collect();
    for (oid, whole) in [(SET, settings(&all)), (GET, ids(&known()))] {
        for length in 0..=whole.len() {
            group.command(&idle.commanded(0, oid, &whole[..length]));
        }
        for count in 0..=255 {
            group.command(&idle.commanded(0, oid, &[&[count], &whole[1..]].concat()));
        }
        for more in [1, 2, 3, 100, 255 - whole.len()] {
            group.command(&idle.commanded(0, oid, &[&whole[..], &vec![0xFF; more]].concat()));
        }
    }
    let (set, get) = (1 + 3 * 15 + 1, 16);
    let short = set + get + 2 * (255 - 15);
    let whole = 2 + 2 * 16 + 2 * 5;
    group.end(short + whole, &[("status 00", whole), ("status 05", short)]);
}

/// Repeated parameters, some invalid, in every order of some entries.
#[test]
fn orders_of_a_set() {
    let mut group = Group::new("orders of a set");
    let idle = rf_state("idle");
    let entries = [
        (0x08, vec![1]),
        (0x08, vec![2]),
        (0x08, vec![]),
        (UNKNOWN, vec![]),
        (INFO, vec![5; 9]),
        (INFO, vec![6; 16]),
    ];
    for first in &entries {
        for second in &entries {
            for third in &entries {
                for values in [DEFAULTS, OTHERS] {
                    let list = [first.clone(), second.clone(), third.clone()];
                    group.command(&idle.configured(&values, SET, &settings(&list)));
                }
            }
        }
    }
    // three of the six are valid
    group.end(2 * 216, &[("status 00", 2 * 27), ("status 09", 2 * 189)]);
}

/// Commands of 255 octets and nearly, and the longest responses to a set.
#[test]
fn the_longest_sets() {
    let mut group = Group::new("the longest sets");
    let idle = rf_state("idle");
    for id in [UNKNOWN, INFO, 0x08] {
        for length in [250, 251, 252] {
            group.command(&idle.commanded(0, SET, &settings(&[(id, vec![1; length])])));
        }
        for stated in [253, 254, 255] {
            group.command(&idle.commanded(0, SET, &[vec![1, id, stated], vec![1; 252]].concat()));
        }
        for count in [1, 126, 127] {
            group.command(&idle.commanded(0, SET, &settings(&vec![(id, vec![]); count])));
        }
        let payload = settings(&vec![(id, vec![]); 127]);
        group.command(&idle.commanded(0, SET, &[&[128], &payload[1..]].concat()));
    }
    let one_octet = settings(&vec![(0x08, vec![1]); 84]);
    group.command(&idle.commanded(0, SET, &one_octet));
    let invalid = settings(&vec![(0x08, vec![9]); 84]);
    group.command(&idle.commanded(0, SET, &invalid));
    group.end(32, &[("status 00", 7), ("status 05", 12), ("status 09", 13)]);
}

/// Each ID alone, beside a known and beside an unknown one.
#[test]
fn every_id_of_a_get() {
    let mut group = Group::new("every ID of a get");
    let idle = rf_state("idle");
    for id in 0..=255 {
        for list in [&[id][..], &[id, 0x68], &[UNKNOWN, id], &[id, id, INFO]] {
            group.command(&idle.configured(&OTHERS, GET, &ids(list)));
        }
    }
    group.end(4 * 256, &[("status 00", 3 * 15), ("status 09", 3 * 241 + 256)]);
}

/// Responses at 255 octets and past them: values of one octet, of fifteen and of none, unknown IDs,
/// and unknown ones among known ones, which do not count.
#[test]
fn the_longest_gets() {
    let mut group = Group::new("the longest gets");
    let idle = rf_state("idle");
    let get = |group: &mut Group, info: usize, list: &[u8]| {
        group.command(&idle.configured(&info_of(info), GET, &ids(list)));
    };
    for count in [83, 84, 85, 86, 127, 253, 254] {
        get(&mut group, 0, &vec![0x09; count]);
    }
    for count in [125, 126, 127, 128, 253, 254] {
        get(&mut group, 15, &vec![UNKNOWN; count]);
        get(&mut group, 0, &vec![INFO; count]);
        get(&mut group, 15, &[vec![UNKNOWN; count], vec![INFO; 254 - count]].concat());
    }
    for info in 0..=15 {
        let most = 253 / (2 + info);
        for count in [most - 1, most, most + 1] {
            get(&mut group, info, &vec![INFO; count]);
        }
        // what is left is filled by values of one octet, then by one more
        let left = (253 - (2 + info) * (most - 1)) / 3;
        for ones in [left, left + 1] {
            get(&mut group, info, &[vec![INFO; most - 1], vec![0x2F; ones]].concat());
        }
    }
    group.end(
        7 + 18 + 16 * 5,
        &[("status 00", 2 + 2 + 16 * 3), ("status 09", 4), ("status 0A", 5 + 12 + 16 * 2)],
    );
}

// ---- states

/// Lists of each kind: none, known, invalid, restored, unknown, unknown before and after known, cut
/// short.
fn lists() -> [(u8, Vec<u8>); 13] {
    [
        (SET, vec![0, 0x08, 1, 1]),
        (SET, vec![1, 0x08, 1, 0]),
        (SET, vec![1, 0x08, 1, 9]),
        (SET, vec![1, INFO, 0]),
        (SET, vec![1, UNKNOWN, 1, 7, 0x08, 1, 1]),
        (SET, vec![2, UNKNOWN, 0, 0x68, 1, 6]),
        (SET, vec![2, 0x68, 1, 6, 0xFF, 2, 6, 6]),
        (SET, vec![1, 0x08, 2, 1]),
        (GET, vec![0, 0x08]),
        (GET, ids(&known())),
        (GET, vec![2, 0x08, UNKNOWN]),
        (GET, vec![3, 0x08, 0x09]),
        (GET, ids(&[0x08; 85])),
    ]
}

#[test]
fn sets_and_gets_in_every_state() {
    let mut group = Group::new("sets and gets in every state");
    for (_, state) in rf_states() {
        for phase in [COLD, RESET, READY] {
            let state = State { phase, ..state.clone() };
            for (oid, payload) in lists() {
                group.command(&state.commanded(0, oid, &payload));
            }
        }
    }
    let states = rf_states().len() as u64;
    let outside = states - 1;
    let due = [
        ("status 00", 3 * states + 2),
        ("status 05", 2 * 3 * states),
        ("status 06", 2 * 11 * states + 5 * outside),
        ("status 09", 2 * states + 3),
        ("status 0A", states),
    ];
    group.end(3 * 13 * states, &due);
}

/// RESET of each type, power and fresh, on values that are defaults, others, and the longest.
#[test]
fn what_restores_values() {
    let mut group = Group::new("what restores values");
    let profile = rf_state("idle").profile.to_vec();
    for (_, state) in rf_states() {
        for values in [DEFAULTS, OTHERS, info_of(15)] {
            for phase in [COLD, RESET, READY] {
                let state = State { phase, ..state.clone() };
                for reset_type in [0, 1, 2, 255] {
                    group.command(&state.commanded(0, 0, &[reset_type]).with(CONFIG, &values));
                }
                let made = state.made().with(CONFIG, &values);
                group.case(&made, &Call::Power);
                group.case(&made, &Call::Fresh(profile.clone()));
            }
        }
    }
    let benches = 9 * rf_states().len() as u64;
    let due = [("answer 0", 2 * benches), ("status 00", 2 * benches), ("status 05", 2 * benches)];
    group.end(6 * benches, &due);
}

/// A command in two segments, cut at each octet.
#[test]
fn sets_and_gets_in_segments() {
    let mut group = Group::new("sets and gets in segments");
    let idle = rf_state("idle");
    let whole = settings(&[(INFO, vec![3; 15]), (INFO, vec![4; 15]), (0x08, vec![0])]);
    for (oid, payload) in [(SET, &whole[..]), (SET, &whole[..whole.len() - 1]), (GET, &ids(&known()))] {
        for cut in 0..=payload.len() {
            let rest = idle.commanded(0, oid, &payload[cut..]);
            group.command(&rest.asking(0, oid, &payload[..cut]));
        }
    }
    group.end(39 + 38 + 17, &[("status 00", 39 + 17), ("status 05", 38)]);
}
