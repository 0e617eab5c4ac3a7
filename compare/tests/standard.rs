//! The standard's own packets (tests/data/nci-vectors.txt) at the two ends of both benches: what
//! each is answered with, and what is heard in it.

use std::collections::BTreeMap;

use compare::both::Both;
use compare::group::Group;
use compare::made::{controller_side, host_side, rf_state, rf_states, AtHost, State, FOUND_PAIRS};
use compare::made::{COLD, CONFIG, DEFAULTS, DISCOVERY, IDLE, LISTEN_SLEEP, RESET, W4_HOST_SELECT};
use exam_bench::call::Call;
use exam_bench::host::Host;

const VECTORS: &str = include_str!("../../tests/data/nci-vectors.txt");

fn octets(hexes: &str) -> Vec<u8> {
    let digits: Vec<char> = hexes.chars().filter(|digit| *digit != ' ').collect();
    let octet = |pair: &[char]| u8::from_str_radix(&String::from_iter(pair), 16).expect("digits");
    digits.chunks(2).map(octet).collect()
}

/// The sections whose vectors are control messages.
const SECTIONS: &str = "BCDEFH";

/// Their octets, by the vectors' numbers.
fn vectors() -> BTreeMap<&'static str, Vec<u8>> {
    let (mut vectors, mut section) = (BTreeMap::new(), ' ');
    for line in VECTORS.lines() {
        if line.starts_with("# ") && line.get(3..5) == Some(". ") {
            section = line.chars().nth(2).expect("a letter");
        } else if SECTIONS.contains(section) && !line.is_empty() && !line.starts_with('#') {
            let fields: Vec<&str> = line.split(" | ").collect();
            vectors.insert(fields[0], octets(fields[2]));
        }
    }
    vectors
}

/// A state with a profile, which is given by its five octets or by eleven.
fn profiled(hexes: &str) -> State {
    let profile = match octets(hexes)[..] {
        [control, p, c, q, d] => vec![control, p, c, p, c, p, c, p, c, q, d],
        ref whole => whole.to_vec(),
    };
    State { profile: profile.try_into().expect("eleven octets"), ..State::default() }
}

fn opened(opened: u8) -> State {
    State { opened, ..State::default() }
}

/// A command, by its vector or its octets, the state that it comes in, and the vectors of its
/// response and of its notification.
type Command = (&'static str, State, &'static str, &'static str);

/// RESET, INIT and commands that there are not.
fn core_commands() -> Vec<Command> {
    let (idle, listening) = (rf_state("idle"), rf_state("listen80"));
    let cold = State { phase: COLD, ..State::default() };
    let after_reset = State { phase: RESET, ..State::default() };
    let mut commands = Vec::new();
    for state in [&cold, &after_reset, &idle, &listening] {
        for (told, response, notification) in [
            ("013", "015", "016"),
            ("014", "015", "017"),
            ("023", "015", "016"),
            ("020", "021", ""),
            ("022", "021", ""),
        ] {
            commands.push((told, state.clone(), response, notification));
        }
    }
    let large = State { phase: RESET, ..profiled("FF04020401") };
    commands.extend([("024", after_reset.clone(), "025", ""), ("024", large, "026", "")]);
    commands.extend([("024", cold.clone(), "028", ""), ("024", idle.clone(), "028", "")]);
    commands.extend([("036", cold, "030", ""), ("036", after_reset, "030", "")]);
    commands.extend([("031", idle.clone(), "032", ""), ("033", idle.clone(), "034", "")]);
    commands.push(("200600", idle, "035", ""));
    commands
}

/// CONN_CREATE, by the pair of the ID that is assigned, and CONN_CLOSE.
fn conn_commands() -> Vec<Command> {
    let idle = rf_state("idle");
    let after_4 = |hexes: &str| State { given: 4, ..profiled(hexes) };
    vec![
        ("036", State::default(), "037", ""),
        ("036", after_4("20FFFF0401"), "038", ""),
        ("036", profiled("20 0402 FFFF 0101 6408 0305"), "037", ""),
        ("036", after_4("20 0402 0101 6408 FFFF 0305"), "038", ""),
        ("041", idle.clone(), "042", ""),
        ("043", idle, "042", ""),
        ("036", opened(0x1E), "042", ""),
        ("044", opened(2), "046", ""),
        ("045", opened(2), "046", ""),
        ("044", State::default(), "047", ""),
    ]
}

/// DISCOVER and DISCOVER_SELECT. Of configurations the bench takes eight, so nine are rejected.
fn discovery_commands() -> Vec<Command> {
    let (idle, select) = (rf_state("idle"), rf_state("select"));
    let mut commands = Vec::new();
    for told in ["051", "052", "053", "055"] {
        commands.push((told, idle.clone(), "060", ""));
    }
    commands.extend([("054", idle.clone(), "057", ""), ("056", idle.clone(), "057", "")]);
    commands.push(("058", idle, "059", ""));
    for (_, state) in rf_states() {
        let response = if state.rf[0] == W4_HOST_SELECT { "066" } else { "069" };
        if state.rf[0] != IDLE {
            commands.push(("051", state.clone(), "061", ""));
        }
        commands.push(("065", state, response, ""));
    }
    commands.extend([("067", select.clone(), "068", ""), ("210403050401", select, "068", "")]);
    commands
}

fn deactivations() -> Vec<Command> {
    let mut commands = Vec::new();
    for state in [rf_state("poll00"), rf_state("listen80")] {
        for (told, notification) in [("077", "080"), ("078", "083"), ("21060101", "081"), ("21060102", "082")]
        {
            commands.push((told, state.clone(), "079", notification));
        }
    }
    commands.extend([("077", rf_state("idle"), "088", ""), ("21060101", rf_state("sleep"), "092", "")]);
    for told in ["21060101", "21060102", "21060103", "2106017F"] {
        commands.push((told, rf_state("disc"), "089", ""));
    }
    commands.extend([
        ("21060101", rf_state("listen82"), "090", ""),
        ("21060102", rf_state("listen81"), "091", ""),
    ]);
    commands
}

/// SET_CONFIG and GET_CONFIG on defaults.
fn config_commands() -> Vec<Command> {
    let idle = rf_state("idle");
    let mut commands = Vec::new();
    for (told, response) in [
        ("097", "098"),
        ("099", "100"),
        ("101", "098"),
        ("102", "098"),
        ("103", "100"),
        ("104", "119"),
        ("117", "098"),
        ("118", "119"),
        ("121", "098"),
        ("122", "123"),
        ("124", "125"),
        ("107", "108"),
        ("109", "110"),
        ("111", "112"),
        ("200303021203", "113"),
        ("114", "115"),
        (LONG_GET, "116"),
        ("128", "129"),
        ("130", "131"),
        ("133", "134"),
    ] {
        commands.push((told, idle.clone(), response, ""));
    }
    for phase in [COLD, RESET] {
        let early = State { phase, ..State::default() };
        for (told, response) in [("097", "120"), ("104", "119"), ("107", "132"), ("130", "131")] {
            commands.push((told, early.clone(), response, ""));
        }
    }
    for (_, state) in rf_states().into_iter().filter(|(_, state)| state.rf[0] != IDLE) {
        commands.extend([("097", state.clone(), "120", ""), ("107", state.clone(), "108", "")]);
        commands.extend([("117", state.clone(), "098", ""), ("104", state, "119", "")]);
    }
    commands
}

/// PA_BAIL_OUT asked for 85 times.
const LONG_GET: &str =
    "2003565508080808080808080808080808080808080808080808080808080808080808080808080808080808\
    080808080808080808080808080808080808080808080808080808080808080808080808080808080808080808";

fn commands() -> Vec<Command> {
    let parts = [core_commands(), conn_commands(), discovery_commands(), deactivations(), config_commands()];
    parts.concat()
}

#[test]
fn commands_are_answered_with_the_packets_named() {
    let (vectors, mut group) = (vectors(), Group::new("commands of the standard"));
    for (told, state, response, notification) in commands() {
        let told = vectors.get(told).cloned().unwrap_or_else(|| octets(told));
        let mut due = vec![vectors[response].clone()];
        if ["025", "026"].contains(&response) {
            // the octets of the NFC-V frame size stay 0
            due[0][14..16].fill(0);
        }
        due.extend(vectors.get(notification).cloned());
        let made = state.commanded(told[0] & 15, told[1], &told[3..]).with(CONFIG, &DEFAULTS);
        let outcome = group.command(&made);
        assert_eq!(outcome.up, due, "{told:02X?} in {state:02X?}");
    }
    let due = [
        ("status 00", 78),
        ("status 01", 10),
        ("status 05", 34),
        ("status 06", 39),
        ("status 09", 6),
        ("status 0A", 1),
        ("status A0", 15),
    ];
    group.end(183, &due);
}

/// A set in two segments, sets followed by gets, and what resets of both types leave, from fresh on.
#[test]
fn values_are_set_and_shown_by_the_packets_named() {
    let (vectors, mut both, mut count) = (vectors(), Both::default(), 0);
    both.begin(&octets("2004020401")).unwrap();
    let reset = ("013", "015");
    for (told, response) in [
        reset,
        ("024", ""),
        ("105", "098"),
        ("109", "4003190003200F1112131415161718191A1B1C1D1E1F2A0130180101"),
        ("124", "125"),
        ("126", "127"),
        ("102", "098"),
        ("097", "098"),
        ("133", "4003080002080101080101"),
        ("014", "015"),
        ("024", ""),
        ("126", "127"),
        reset,
        ("024", ""),
        ("114", "115"),
    ] {
        let segments = if told == "105" { vec!["105", "106"] } else { vec![told] };
        let payload: Vec<u8> = segments.iter().flat_map(|number| vectors[number][3..].to_vec()).collect();
        let (gid, oid) = (vectors[told][0] & 15, vectors[told][1]);
        both.step(&Call::Command { gid, oid, payload }).unwrap();
        let due: Vec<Vec<u8>> = segments.iter().map(|number| vectors[number].clone()).collect();
        assert_eq!(both.outcome.as_ref().unwrap().down, due, "{told}");
        segments.iter().for_each(|_| both.step(&Call::Down).unwrap());
        let put = both.outcome.clone().unwrap().up;
        let due = vectors.get(response).cloned().unwrap_or_else(|| octets(response));
        assert!(due.is_empty() || put[0] == due, "{told}: {:02X?}", put[0]);
        put.iter().for_each(|_| both.step(&Call::Up).unwrap());
        count += 1;
    }
    println!("cases={count} group=\"sets and gets of the standard in turn\"");
    assert_eq!(count, 15);
}

#[test]
fn events_are_notified_by_the_packets_named() {
    let (vectors, mut group) = (vectors(), Group::new("events of the standard"));
    let (disc, listening) = (rf_state("disc"), rf_state("listen80"));
    let found = State { pairs: FOUND_PAIRS[..1].to_vec(), ..rf_state("all") };
    let in_state = |hexes: &str, rf: u8| profiled(hexes).plain(rf);
    let (nfc_a, nfc_b) = ("04000408AABBCC012000", "0B1122334400000000808171");
    for (event, state, notification) in [
        (format!("0101040002{nfc_a}"), disc, "062"),
        (format!("0102040100{nfc_b}"), found.clone(), "063"),
        ("0103060601".to_string(), found, "064"),
        ("04".to_string(), rf_state("chosen"), "070"),
        (format!("02010400{nfc_a}"), in_state("200402FF01", DISCOVERY), "071"),
        ("02010200".to_string(), in_state("20040204FF", DISCOVERY), "072"),
        (format!("02010400{nfc_a}"), in_state("20 0402 0101 6408 FFFF FF01", DISCOVERY), "071"),
        ("03010480".to_string(), in_state("2004022002", LISTEN_SLEEP), "073"),
        ("0301048100".to_string(), in_state("2004022002", DISCOVERY), "074"),
        ("05".to_string(), listening.clone(), "084"),
        ("06".to_string(), listening.clone(), "085"),
        ("06".to_string(), rf_state("sleep"), "085"),
        ("07".to_string(), listening, "086"),
    ] {
        let event = octets(&event);
        assert_eq!(group.air(&state.aired(&event), &event).up, [vectors[notification].clone()]);
    }
    group.end(13, &[("answer 0", 13)]);
}

/// What is owed on the five connections, and the notice of it.
#[test]
fn credits_are_noticed_by_the_packets_named() {
    let (vectors, mut group) = (vectors(), Group::new("credit notices of the standard"));
    for (notice, owed) in [("048", [0, 2, 0, 0, 0]), ("049", [1, 3, 0, 0, 8])] {
        let mut made = AtHost::alone(0).made();
        for (place, owed) in owed.into_iter().enumerate() {
            made = made.with(controller_side(place), &[1, 8, owed]);
        }
        let outcome = group.case(&made, &Call::Credit).expect("a sound record");
        assert_eq!(outcome.up, [vectors[notice].clone()]);
    }
    group.end(2, &[("answer 0", 2)]);
}

/// What the host hears in a vector. Some are never written here: a RESET that no command asked
/// for, an NFC-V frame size, credits 00, reserved bits of a Conn ID, bit rates, another
/// interface, a reason that the air does not give.
const HEARD: [(&str, &[&str]); 8] = [
    ("resets", &["015"]),
    (
        "nothing",
        &[
            "016", "017", "018", "019", "025", "026", "027", "039", "040", "050", "062", "063", "064", "070",
            "075", "076", "087",
        ],
    ),
    (
        "answered",
        &[
            "021", "028", "029", "030", "032", "034", "035", "042", "047", "057", "059", "060", "061", "066",
            "068", "069", "079", "088", "089", "090", "091", "092", "098", "100", "108", "110", "112", "113",
            "115", "116", "119", "120", "123", "125", "127", "129", "131", "132", "134",
        ],
    ),
    ("opens", &["037", "038"]),
    ("closes", &["046"]),
    ("credits", &["048", "049"]),
    ("activated", &["071", "072", "073", "074"]),
    ("deactivated", &["080", "081", "082", "083", "084", "085", "086"]),
];

/// What a packet did to the host.
fn said(before: &Host, after: &Host) -> &'static str {
    if *after == Host::cold() {
        return "resets";
    }
    let answered = before.unanswered.is_some() && after.unanswered.is_none();
    let sides: Vec<_> = before.connections.iter().zip(&after.connections).collect();
    let changed = |place: usize| sides[place].0 != sides[place].1;
    let is_new = |place: usize| sides[place].1.as_ref().is_some_and(|open| open.in_hand.is_none());
    let is_closed = |place: usize| changed(place) && sides[place].1.is_none();
    match answered {
        true if (1..5).any(|place| changed(place) && is_new(place)) => "opens",
        true if (1..5).any(is_closed) => "closes",
        true if before.connections == after.connections => "answered",
        false if is_closed(0) => "deactivated",
        false if changed(0) && is_new(0) => "activated",
        false if (0..5).any(changed) => "credits",
        false if before.control_size == after.control_size => "nothing",
        _ => "other",
    }
}

#[test]
fn each_packet_is_heard_as_what_it_is() {
    let (vectors, mut both, mut count) = (vectors(), Both::default(), 0);
    for (due, numbers) in HEARD {
        for number in numbers {
            let packet = &vectors[number];
            let host = AtHost::alone(0b01011).awaiting(packet[0] & 15, packet[1], 2);
            // none of the credits is held
            let made = [0, 1, 3]
                .into_iter()
                .fold(host.given(packet), |made, place| made.with(host_side(place) + 3, &[0]));
            both.put(made.octets());
            let before = both.second.clone().expect("a sound record").host;
            both.step(&Call::Up).unwrap();
            let after = both.second.clone().expect("a sound record").host;
            assert_eq!(said(&before, &after), due, "{number}");
            count += 1;
        }
    }
    println!("cases={count} group=\"packets of the standard at the host\"");
    assert_eq!(count, 73);
}

/// Each vector of these sections is a command to the controller or a packet to the host; some sets and
/// gets come in turn alone.
#[test]
fn every_vector_is_used() {
    let mut vectors = vectors();
    ["105", "106", "126"].iter().for_each(|told| drop(vectors.remove(told)));
    commands().iter().for_each(|(told, ..)| drop(vectors.remove(told)));
    HEARD.iter().flat_map(|(_, numbers)| *numbers).for_each(|number| drop(vectors.remove(number)));
    assert!(vectors.is_empty(), "{:?}", vectors.keys());
}
