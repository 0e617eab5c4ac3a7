//! Events of the air in every state, on both benches, with each field at and past its limits.

use compare::group::Group;
use compare::made::{rf_state, rf_states, State, COLD, EDGES, FOUND_PAIRS, RESET};

/// A whole event of a kind.
fn whole(kind: u8) -> Vec<u8> {
    match kind {
        1 => vec![1, 9, 4, 0, 2, 0xAA],
        2 => vec![2, 1, 4, 0, 0xAA],
        3 => vec![3, 9, 4, 0x80, 0xAA],
        8 => vec![8, 0xAA],
        kind => vec![kind],
    }
}

fn event(group: &mut Group, state: &State, event: &[u8]) {
    group.air(&state.aired(event), event);
}

/// Each field of an event at its limits, and every length around that of the fixed ones.
fn limits(group: &mut Group, state: &State, kind: u8) {
    let every: Vec<u8> = (0..=255).collect();
    let fixed = if kind == 1 { 5 } else { 4 };
    for place in 1..fixed {
        for value in if place == 3 { &every[..] } else { &EDGES } {
            let mut octets = whole(kind);
            octets[place] = *value;
            event(group, state, &octets);
        }
    }
    let padded = [&whole(kind)[..fixed], &every].concat();
    for length in (1..fixed).chain([0, 1, 2, 31, 32, 33, 34, 200].map(|parameters| fixed + parameters)) {
        event(group, state, &padded[..length]);
        event(group, &State::default(), &padded[..length]);
    }
}

/// Each kind in each phase and RF state, then the limits of each field.
#[test]
fn events_of_the_air() {
    let mut group = Group::new("events of the air");
    for (_, state) in rf_states() {
        (0..10).chain([255]).for_each(|kind| event(&mut group, &state, &whole(kind)));
    }
    for phase in [COLD, RESET] {
        let state = State { phase, ..State::default() };
        (1..9).for_each(|kind| event(&mut group, &state, &whole(kind)));
    }
    event(&mut group, &State::default(), &[]);
    for (kind, state) in [(1, "all"), (2, "disc"), (3, "sleep")] {
        limits(&mut group, &rf_state(state), kind);
    }
    for kind in 4..8 {
        for more in [1, 2, 40] {
            for state in ["chosen", "listen81", "idle"] {
                event(&mut group, &rf_state(state), &vec![kind; 1 + more]);
            }
        }
    }
    for length in [0, 1, 2, 255, 1023, 1024, 1025] {
        for state in ["poll06", "listen80", "sleep"] {
            if state == "poll06" || [0, 1024, 1025].contains(&length) {
                event(&mut group, &rf_state(state), &[vec![8], vec![0; length]].concat());
            }
        }
    }
    group.end(1267, &[("answer 0", 226), ("answer 11", 131), ("answer 3", 910)]);
}

/// The list of pairs at each length, with each type of notification: a new pair and a repeated
/// one.
#[test]
fn pairs_found() {
    let mut group = Group::new("pairs found");
    for count in 0..9 {
        for kind in 0..3 {
            for state in ["disc", "all"] {
                let state = State { pairs: FOUND_PAIRS[..count].to_vec(), ..rf_state(state) };
                let mut pairs = vec![FOUND_PAIRS[count], [200, 4]];
                pairs.extend(FOUND_PAIRS[..count].first());
                pairs.extend(FOUND_PAIRS[..count].last());
                pairs.sort();
                pairs.dedup();
                for [id, protocol] in pairs {
                    event(&mut group, &state, &[1, id, protocol, 0, kind]);
                }
            }
        }
    }
    group.end(198, &[("answer 0", 79), ("answer 11", 119)]);
}

/// Activations and failures in W4_HOST_SELECT, with each selection.
#[test]
fn activations_and_failures_after_a_selection() {
    let mut group = Group::new("activations and failures after a selection");
    let pairs = [FOUND_PAIRS[0], FOUND_PAIRS[1], FOUND_PAIRS[2], [200, 200]];
    for count in [0, 1, 3, 8] {
        for chosen in [None].into_iter().chain(pairs.map(Some)) {
            let listed = State { pairs: FOUND_PAIRS[..count].to_vec(), ..rf_state("select") };
            let state = listed.selected(chosen);
            for [id, protocol] in pairs {
                event(&mut group, &state, &[2, id, protocol, 6]);
            }
            event(&mut group, &state, &[4]);
        }
    }
    group.end(100, &[("answer 0", 32), ("answer 11", 68)]);
}
