//! Commands to a controller in every state, on both benches: each command with each payload
//! at and past its limits. What each group came to is counted.

use compare::group::Group;
use compare::made::{rf_state, rf_states, State};
use compare::made::{COLD, DISCOVERY, EDGES, FOUND_PAIRS, LISTEN_MODES, POLL_MODES, READY, RESET};

/// A whole command of each kind; the last is none that there is.
const WHOLE: [(u8, u8, &[u8]); 10] = [
    (0, 0, &[1]),
    (0, 1, &[0, 0]),
    (0, 2, &[2, 0x08, 1, 0, 0x2F, 0]),
    (0, 3, &[2, 0x68, 0x20]),
    (0, 4, &[1, 0]),
    (0, 5, &[2]),
    (1, 3, &[2, 0, 1, 0x80, 1]),
    (1, 4, &[1, 4, 1]),
    (1, 6, &[0]),
    (0, 0x0B, &[0]),
];
const KNOWN: [(u8, u8); 9] = [(0, 0), (0, 1), (0, 2), (0, 3), (0, 4), (0, 5), (1, 3), (1, 4), (1, 6)];
const RF_ACTIVATION: [u8; 4] = [2, 1, 4, 0];

fn every_octet() -> Vec<u8> {
    (0..=255).collect()
}

fn in_phase(state: &State, phase: u8) -> State {
    State { phase, ..state.clone() }
}

/// Each command in each phase and RF state; RESET and DEACTIVATE with each type.
#[test]
fn commands_in_every_state() {
    let mut group = Group::new("commands in every state");
    for (_, state) in rf_states() {
        for phase in [COLD, RESET, READY] {
            for (gid, oid, whole) in WHOLE {
                let types: &[u8] = match (gid, oid) {
                    (0, 0) => &[0, 1, 2, 255],
                    (1, 6) => &[0, 1, 2, 3, 4, 255],
                    _ => &[whole[0]],
                };
                for first in types {
                    let payload = [&[*first], &whole[1..]].concat();
                    group.command(&in_phase(&state, phase).commanded(gid, oid, &payload));
                }
            }
        }
    }
    let due =
        [("status 00", 229), ("status 01", 2), ("status 05", 164), ("status 06", 454), ("status A0", 15)];
    group.end(864, &due);
}

/// Commands cut short and with octets to spare.
#[test]
fn commands_of_every_length() {
    let mut group = Group::new("commands of every length");
    for state in ["idle", "select", "listen82"] {
        for phase in [COLD, RESET, READY] {
            for (gid, oid, whole) in WHOLE {
                let padded = [whole, &[0xA5; 255]].concat();
                for length in (0..whole.len() + 3).chain([255]) {
                    let state = in_phase(&rf_state(state), phase);
                    group.command(&state.commanded(gid, oid, &padded[..length]));
                }
            }
        }
    }
    let due = [("status 00", 104), ("status 05", 261), ("status 06", 212), ("status A0", 8)];
    group.end(585, &due);
}

/// Each GID and OID, with no octet and, where it is unknown, before INIT too.
#[test]
fn every_gid_and_oid() {
    let mut group = Group::new("every GID and OID");
    for gid in 0..16 {
        for oid in 0..64 {
            let early = !KNOWN.contains(&(gid, oid)) && oid % 9 == 0;
            for phase in if early { vec![COLD, READY] } else { vec![READY] } {
                group.command(&in_phase(&State::default(), phase).commanded(gid, oid, &[]));
            }
        }
    }
    group.end(1151, &[("status 05", 1151)]);
}

/// A command with one of its octets at each of some values.
fn sweep(group: &mut Group, state: &State, (gid, oid): (u8, u8), payload: &[u8], at: usize, values: &[u8]) {
    for value in values {
        let mut payload = payload.to_vec();
        payload[at] = *value;
        group.command(&state.commanded(gid, oid, &payload));
    }
}

/// INIT, CONN_CREATE and an activation with profiles at their limits.
fn stated(group: &mut Group, control: u8, payload: u8, credits: u8) {
    let fixed = if credits < 9 { 9 - credits } else { 255 };
    let pair = [payload, credits];
    let profile = [&[control][..], &pair, &pair, &pair, &pair, &[0_u8.wrapping_sub(payload), fixed]].concat();
    let state = State { profile: profile.try_into().unwrap(), ..State::default() };
    group.command(&in_phase(&state, RESET).commanded(0, 1, &[0, 0]));
    group.command(&state.commanded(0, 4, &[1, 0]));
    group.air(&state.plain(DISCOVERY).aired(&RF_ACTIVATION), &RF_ACTIVATION);
}

/// Every limit of every value.
#[test]
fn values_of_commands() {
    let mut group = Group::new("values of commands");
    let (idle, chosen) = (rf_state("idle"), rf_state("chosen"));
    let all_open = State { opened: 0x1F, ..idle.clone() };
    sweep(&mut group, &rf_state("listen80"), (0, 0), &[0], 0, &every_octet());
    for feature in [0, 1] {
        sweep(&mut group, &in_phase(&State::default(), RESET), (0, 1), &[0, 0], feature, &EDGES);
    }
    for control in [32, 33, 254, 255] {
        for payload in [1, 2, 255] {
            for credits in [1, 8, 255] {
                stated(&mut group, control, payload, credits);
            }
        }
    }
    sweep(&mut group, &idle, (0, 4), &[1, 0], 0, &every_octet());
    sweep(&mut group, &idle, (0, 4), &[1, 0], 1, &EDGES);
    group.command(&idle.commanded(0, 4, &[3, 1, 1, 2, 0x10, 0]));
    group.command(&idle.commanded(0, 4, &[1, 1, 1, 2, 0x10, 0]));
    sweep(&mut group, &all_open, (0, 5), &[0], 0, &every_octet());
    for conn in 0..8 {
        for high in [0x00, 0xF0] {
            for opened in (0..32).step_by(3) {
                group.command(&State { opened, ..idle.clone() }.commanded(0, 5, &[high + conn]));
            }
        }
    }
    for place in 0..3 {
        sweep(&mut group, &chosen, (1, 4), &[1, 4, 1], place, &EDGES);
    }
    sweep(&mut group, &rf_state("sleep"), (1, 6), &[0], 0, &every_octet());
    for state in ["disc", "poll00", "listen83"] {
        sweep(&mut group, &rf_state(state), (1, 6), &[0], 0, &EDGES);
    }
    let due =
        [("answer 0", 36), ("status 00", 279), ("status 01", 683), ("status 05", 552), ("status 06", 3)];
    group.end(1553, &due);
}

/// Each connection opens by its own pair, which is at its limits among others.
#[test]
fn a_pair_for_each_connection() {
    let mut group = Group::new("a pair for each connection");
    for place in 0..5 {
        for payload in [1, 255] {
            for credits in [1, 8, 255] {
                let mut profile = [64, 1, 1, 255, 8, 100, 255, 16, 3, 32, 4];
                profile[1 + 2 * place..][..2].copy_from_slice(&[payload, credits]);
                let state = State { profile, ..State::default() };
                for given in 2..=5 {
                    group.command(&State { given, ..state.clone() }.commanded(0, 4, &[1, 0]));
                }
                group.air(&state.plain(DISCOVERY).aired(&RF_ACTIVATION), &RF_ACTIVATION);
            }
        }
    }
    group.end(150, &[("answer 0", 30), ("status 00", 120)]);
}

/// The next Conn ID from each one given and each set of open connections.
#[test]
fn conn_ids_given() {
    let mut group = Group::new("Conn IDs given");
    for given in [0, 2, 3, 4, 5] {
        for opened in 0..32 {
            group.command(&State { given, opened, ..State::default() }.commanded(0, 4, &[1, 0]));
        }
    }
    group.end(160, &[("status 00", 150), ("status 01", 10)]);
}

/// Configurations, as many as a count says, or one octet more or fewer.
fn counted(group: &mut Group, idle: &State) {
    let modes = [&POLL_MODES[..], &LISTEN_MODES].concat().repeat(20);
    let configs: Vec<u8> = modes.iter().flat_map(|mode| [*mode, 1]).collect();
    for count in (0..11).chain([126, 127, 128, 255]) {
        for more in [-1, 0, 1] {
            let length = (1 + 2 * i32::from(count) + more).clamp(0, 255) as usize;
            let payload = [&[count], &configs[..]].concat();
            group.command(&idle.commanded(1, 3, &payload[..length]));
        }
    }
}

#[test]
fn configurations_of_discover() {
    let mut group = Group::new("configurations of DISCOVER");
    let idle = rf_state("idle");
    sweep(&mut group, &idle, (1, 3), &[1, 0, 1], 1, &every_octet());
    sweep(&mut group, &idle, (1, 3), &[1, 0, 2], 1, &EDGES);
    sweep(&mut group, &idle, (1, 3), &[1, 0, 1], 2, &every_octet());
    for mode in POLL_MODES.into_iter().chain(LISTEN_MODES) {
        sweep(&mut group, &idle, (1, 3), &[1, mode, 0], 2, &[0, 1, 2, 9, 10, 11, 255]);
    }
    counted(&mut group, &idle);
    for count in [1, 2, 7, 8] {
        for wrong in [[0x04, 0x01], [0x00, 0x0B], [0x83, 0x02]] {
            for place in 0..=count {
                let mut configs = vec![[0x80, 0x01]; count + 2];
                configs[place] = wrong;
                let payload = [vec![count as u8], configs.concat()].concat();
                group.command(&idle.commanded(1, 3, &payload));
            }
        }
    }
    group.end(713, &[("status 00", 78), ("status 01", 616), ("status 05", 19)]);
}

/// Each pair of a list, and pairs beside it, after none, the same and another selection.
#[test]
fn selections() {
    let mut group = Group::new("selections");
    for count in 0..9 {
        for earlier in [None, Some(FOUND_PAIRS[0]), Some(FOUND_PAIRS[1])] {
            let listed = State { pairs: FOUND_PAIRS[..count].to_vec(), ..rf_state("select") };
            let state = listed.selected(earlier);
            let beside = [[1, 6], [6, 4], [0, 0]];
            for [id, protocol] in FOUND_PAIRS[..=count].iter().chain(&beside) {
                group.command(&state.commanded(1, 4, &[*id, *protocol, 1]));
            }
            group.command(&state.commanded(1, 4, &[FOUND_PAIRS[0][0], FOUND_PAIRS[0][1], 0]));
        }
    }
    group.end(243, &[("status 00", 108), ("status 01", 135)]);
}
