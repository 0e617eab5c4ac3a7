//! Records at their limits and past them, on both benches: which of them every call refuses
//! with 1, and that the others are read as what they are. Areas of other lengths.

use compare::both::Both;
use compare::group::Group;
use compare::lent::{Room, BUFFER, PAST};
use compare::made::{controller_side, host_side, Made};
use compare::made::{ASKED, ASKING, ENDPOINT, FOUND, GIVEN, HEARING, PAIRS, PHASE, READY, RESET, RF, SIZE};
use compare::made::{CONFIG, DEFAULTS, DOWN, INFO_LENGTH, OTHERS, PF_BIT_RATE, UP};
use compare::record::{AREA, INFO_ROOM, RECORD, RECORD_AT, SAID, VALUES};
use compare::word;
use exam_bench::call::Call;
use exam_bench::profile::LONG_PROFILE;

type Profile = [u8; LONG_PROFILE];

const FIRST: Profile = [32, 4, 2, 4, 2, 4, 2, 4, 2, 4, 1];
const UNLIMITED: Profile = [255; LONG_PROFILE];
const LEAST: Profile = [32, 1, 1, 1, 1, 1, 1, 1, 1, 1, 1];
/// 2 tight, 3 loose, 4 without flow control, 5 and 0 between them.
const UNLIKE: Profile = [64, 1, 1, 255, 8, 100, 255, 16, 3, 32, 4];
const EIGHT: [u8; 16] = [1, 4, 2, 5, 3, 0x80, 254, 255, 5, 0, 6, 6, 7, 1, 8, 2];
/// The greatest values: all of PI_B_H_INFO, PACM_BIT_RATE FE.
const GREATEST: [u8; VALUES] = [
    1, 255, 255, 1, 255, 255, 2, 1, 255, 15, 255, 255, 255, 255, 255, 255, 255, 255, 255, 255, 255, 255, 255,
    255, 255, 3, 1, 255, 255, 0xFE,
];
/// Of the records of `every_octet_of_some_records`: those of the record proper, and those of the values,
/// by PI_B_H_INFO without octets, with seven and with fifteen.
const SOUND: u64 = 50_094 + 3 * OTHER_VALUES + (16 + 15) + (9 + 7 * 256 + 8) + (1 + 15 * 256);
/// Seven of one octet take any, four take two, PF_BIT_RATE, PI_BIT_RATE and PACM_BIT_RATE some.
const OTHER_VALUES: u64 = 7 * 256 + 4 * 2 + 2 + 4 + 135;

/// Every call but fresh, which looks at no record.
fn calls() -> Vec<Call> {
    let command = Call::Command { gid: 0, oid: 0, payload: vec![1] };
    let send = Call::Send { conn: 2, message: vec![7] };
    let mut calls = vec![Call::Power, command, send, Call::Push(2), Call::Down, Call::Up, Call::Credit];
    calls.extend([Call::Air(vec![4]), Call::Reply, Call::Run]);
    calls.extend([0, 2, 3, 4, 5].map(Call::Consume));
    calls.extend([0, 2, 3, 4, 5].map(Call::Report));
    calls
}

/// Records on which every call of a list is made.
struct Records {
    group: Group,
    calls: Vec<Call>,
    sound: u64,
    damaged: u64,
}

impl Records {
    fn new(name: &'static str, calls: Vec<Call>) -> Records {
        Records { group: Group::new(name), calls, sound: 0, damaged: 0 }
    }

    /// All calls refuse the record, or none does.
    fn judge(&mut self, made: &Made) {
        let refused = self.calls.iter().filter(|call| self.group.case(made, call).is_none()).count();
        assert!(refused == 0 || refused == self.calls.len(), "{:02X?}", made.record());
        *(if refused == 0 { &mut self.sound } else { &mut self.damaged }) += 1;
    }

    fn end(self, sound: u64, damaged: u64) {
        let (sound_met, damaged_met) = (self.sound, self.damaged);
        println!(
            "cases={} group={:?} sound={sound_met} damaged={damaged_met}",
            sound_met + damaged_met,
            self.group.name()
        );
        assert_eq!((self.sound, self.damaged), (sound, damaged));
        assert_eq!(self.group.cases(), (sound + damaged) * self.calls.len() as u64);
    }
}

// ---- good records

/// After INIT, where the host's size is the one that the controller stated.
fn ready(profile: &Profile) -> Made {
    Made::cold(profile).with(SIZE, &profile[..1]).with(PHASE, &[READY])
}

/// The pair of the connection at a place; that of 0 is the profile's last.
fn terms(profile: &Profile, place: usize) -> [u8; 2] {
    let at = if place == 0 { 9 } else { 2 * place - 1 };
    [profile[at], profile[at + 1]]
}

fn wide(number: u16) -> [u8; 2] {
    number.to_be_bytes()
}

fn hand(length: u16, position: u16) -> [u8; 5] {
    let ([a, b], [c, d]) = (wide(length), wide(position));
    [1, a, b, c, d]
}

fn run(length: u16, lost: u8) -> [u8; 3] {
    let [a, b] = wide(length);
    [a, b, lost]
}

/// What the sides of an open connection have besides its terms.
#[derive(Clone, Copy, Default)]
struct More {
    in_hand: [u8; 5],
    at_host: [u8; 3],
    store: [u8; 2],
    at_controller: [u8; 3],
    /// No credits held, and all of the grant owed.
    spent: bool,
}

/// Connections open at both ends, each by the profile's terms for it.
fn opened(mut made: Made, profile: &Profile, places: &[usize], more: More) -> Made {
    for place in places {
        let [payload, credits] = terms(profile, *place);
        let (held, owed) = if more.spent { (0, credits) } else { (credits, 0) };
        let host = [&[1, payload, credits, held], &more.in_hand[..], &more.at_host].concat();
        let controller = [&[1, credits, owed], &more.store[..], &more.at_controller].concat();
        made = made.with(host_side(*place), &host).with(controller_side(*place), &controller);
    }
    made
}

const ALL: [usize; 5] = [0, 1, 2, 3, 4];

fn listed(made: Made, rf: [u8; 4], count: u8) -> Made {
    made.with(RF, &rf).with(PAIRS, &EIGHT).with(FOUND, &[count])
}

/// All that a record can have: wires, stores, messages, runs, pairs, no flow control.
fn full() -> Made {
    let made = listed(ready(&UNLIMITED), [3, 1, 254, 128], 8)
        .with(GIVEN, &[5])
        .with(ASKED, &[1, 15, 63, 15])
        .with(HEARING, &[3, 15, 63, 0, 255, 1])
        .with(ASKING, &[1, 15, 63, 0, 255, 1])
        .with(ENDPOINT, &hand(1024, 1024))
        .with(DOWN, &[15, 16, 15, 16])
        .with(CONFIG, &GREATEST);
    let more = More {
        in_hand: hand(1024, 1024),
        at_host: run(1024, 1),
        store: [7, 8],
        at_controller: run(1024, 1),
        spent: false,
    };
    let mut made = opened(made, &UNLIMITED, &ALL, more);
    for place in ALL {
        made = made.with(controller_side(place) + 2, &[255]);
    }
    made
}

/// In the middle of things: numbers between their limits; 5 is closed, and 3 not yet open at the
/// host.
fn busy() -> Made {
    let profile = [64, 16, 8, 1, 2, 255, 255, 4, 1, 32, 4];
    let made = listed(ready(&profile), [4, 9, 4, 3], 4)
        .with(GIVEN, &[4])
        .with(ASKED, &[1, 0, 5, 3])
        .with(HEARING, &[2, 1, 6, 0, 17, 0])
        .with(ASKING, &[1, 0, 4, 0, 40, 0])
        .with(ENDPOINT, &hand(700, 255))
        .with(DOWN, &[3, 5, 9, 11])
        .with(CONFIG, &OTHERS);
    let more = More {
        in_hand: hand(600, 300),
        at_host: run(258, 0),
        store: [6, 3],
        at_controller: run(513, 0),
        spent: false,
    };
    opened(made, &profile, &[0, 1, 3], more)
        .with(host_side(1) + 3, &[3])
        .with(controller_side(1) + 2, &[4])
        .with(controller_side(2), &[1, 2, 2])
}

fn bases() -> [Made; 3] {
    [Made::cold(&FIRST), busy(), full()]
}

fn profiles() -> Vec<Made> {
    let large = [255, 4, 2, 4, 2, 4, 2, 4, 2, 4, 1];
    let most = [255, 255, 8, 255, 8, 255, 8, 255, 8, 255, 8];
    let mut benches = vec![
        Made::cold(&FIRST).with(PHASE, &[RESET]),
        ready(&FIRST),
        ready(&large).with(SIZE, &[32, 1, 0, 1, 0]),
    ];
    benches.extend([large, LEAST, most, UNLIMITED, UNLIKE].map(|profile| ready(&profile)));
    for pair in 0..5 {
        for (mut profile, terms) in [(UNLIMITED, [1, 1]), (LEAST, [255, 8])] {
            profile[1 + 2 * pair..][..2].copy_from_slice(&terms);
            benches.push(ready(&profile));
        }
    }
    benches
}

/// Each RF state, with and without what it can carry.
fn rf_states() -> Vec<Made> {
    let plain = |rf: u8| ready(&FIRST).with(RF, &[rf]);
    let active = |rf: [u8; 4]| opened(listed(ready(&FIRST), rf, 1), &FIRST, &[0], More::default());
    vec![
        plain(0),
        plain(1),
        listed(ready(&FIRST), [2, 0, 0, 0], 3),
        listed(ready(&FIRST), [2, 0, 0, 0], 8),
        listed(ready(&FIRST), [3, 0, 0, 0], 3),
        listed(ready(&FIRST), [3, 1, 1, 4], 3),
        listed(ready(&FIRST), [3, 1, 0, 0], 3),
        active([4, 1, 4, 6]),
        active([4, 0, 0, 0]),
        active([4, 255, 255, 255]),
        opened(ready(&FIRST).with(RF, &[5, 2, 5, 0x83]), &FIRST, &[0], More::default()),
        ready(&FIRST).with(RF, &[5, 2, 5, 0x83]),
        plain(6),
    ]
}

fn connections() -> Vec<Made> {
    let plain = More::default();
    let of = |profile: &Profile, given: u8, places: &[usize], more: More| {
        opened(ready(profile).with(GIVEN, &[given]), profile, places, more)
    };
    let mut benches: Vec<Made> = (1..5).map(|place| of(&FIRST, place as u8 + 1, &[place], plain)).collect();
    benches.extend([FIRST, UNLIMITED, UNLIKE].map(|profile| of(&profile, 5, &ALL, plain)));
    let loose = of(&UNLIKE, 3, &[1, 2], More { in_hand: hand(600, 255), ..plain });
    let waits = [&[1, 1, 1, 0], &hand(2, 1)[..], &run(0, 0)].concat();
    benches.extend([loose.clone(), loose.with(host_side(1), &waits)]);
    let poll = listed(ready(&FIRST), [4, 1, 4, 6], 1);
    for (length, position) in [(0, 0), (1, 0), (1, 1), (4, 4), (1023, 1020), (1024, 0), (1024, 1024)] {
        benches.push(of(&FIRST, 2, &[1], More { in_hand: hand(length, position), ..plain }));
        benches.push(opened(poll.clone(), &FIRST, &[0], plain).with(ENDPOINT, &hand(length, position)));
    }
    for length in [1, 255, 256, 1023, 1024] {
        for lost in [0, 1] {
            let more = More { at_host: run(length, lost), at_controller: run(length, lost), ..plain };
            benches.push(of(&FIRST, 0, &ALL, more));
        }
    }
    benches.extend([0, 3, 7].map(|head| of(&FIRST, 0, &ALL, More { store: [head, 8], ..plain })));
    let spent = More { spent: true, ..plain };
    benches.extend([FIRST, UNLIMITED, UNLIKE].map(|profile| of(&profile, 0, &ALL, spent)));
    benches
}

fn control_runs_and_wires() -> Vec<Made> {
    let mut benches = Vec::new();
    for length in [1, 255] {
        for lost in [0, 1] {
            let run = [3, 15, 63, 0, length, lost];
            benches.push(ready(&FIRST).with(HEARING, &run).with(ASKING, &run));
        }
    }
    benches.extend([0, 7, 15].map(|head| ready(&FIRST).with(DOWN, &[head, 16, head, 16])));
    benches
}

/// Values at their limits, and PI_B_H_INFO of each length, of zeros and of other octets.
fn values() -> Vec<Made> {
    let with = |values: &[u8; VALUES]| ready(&FIRST).with(CONFIG, values);
    let mut benches = vec![with(&DEFAULTS), with(&OTHERS), with(&GREATEST)];
    for (place, limits) in [(0, &[0, 1][..]), (1, &[0, 255]), (6, &[1, 2]), (25, &[0, 3]), (27, &[0, 255])] {
        benches.extend(limits.iter().map(|value| with(&DEFAULTS).with(CONFIG + place, &[*value])));
    }
    for rate in [0x00, 0x06, 0x20, 0x80, 0xFE] {
        benches.push(with(&DEFAULTS).with(CONFIG + VALUES - 1, &[rate]));
    }
    for length in 0..=INFO_ROOM {
        for octet in [0x00, 0x01, 0xFF] {
            let info = [vec![length as u8], vec![octet; length]].concat();
            benches.push(with(&DEFAULTS).with(INFO_LENGTH, &info));
        }
    }
    benches
}

#[test]
fn good_records() {
    let mut records = Records::new("good records", calls());
    let parts =
        [bases().to_vec(), profiles(), rf_states(), connections(), control_runs_and_wires(), values()];
    parts.iter().flatten().for_each(|made| records.judge(made));
    records.end(80 + 3 + 10 + 5 + 3 * 16, 0);
}

// ---- records at and past their limits

/// Each octet of some records at each of its values.
#[test]
fn every_octet_of_some_records() {
    let few = vec![Call::Credit, Call::Up, Call::Report(2)];
    let mut records = Records::new("every octet of some records", few);
    for base in bases() {
        for place in 0..SAID {
            (0..=255).for_each(|value| records.judge(&base.clone().with(place, &[value])));
        }
    }
    records.end(SOUND, 3 * 190 * 256 - SOUND);
}

/// Each length of PI_B_H_INFO, with each of its octets at 0 and another, and with all of them.
#[test]
fn lengths_of_pi_b_h_info() {
    let mut records = Records::new("lengths of PI_B_H_INFO in the record", calls());
    let base = ready(&FIRST);
    for length in 0..=255 {
        let with = |octets: [u8; INFO_ROOM]| {
            base.clone().with(INFO_LENGTH, &[length]).with(INFO_LENGTH + 1, &octets)
        };
        records.judge(&with([0; INFO_ROOM]));
        records.judge(&with([0xA7; INFO_ROOM]));
        for place in 0..INFO_ROOM {
            let mut octets = [0; INFO_ROOM];
            octets[place] = 1;
            records.judge(&with(octets));
        }
    }
    // zeros under every length that there is, all others under 15; each octet under those past its place
    records.end(16 + 1 + 120, 17 * 256 - 137);
}

/// Messages in hand and in reassembly, judged by two octets and by one another.
fn messages(records: &mut Records, base: &Made) {
    let gone = [(0, 1), (256, 255), (255, 256), (1023, 1024), (1024, 1024), (1024, 1025)];
    let hands = [ENDPOINT].into_iter().chain(ALL.map(|place| host_side(place) + 4));
    for place in hands {
        for (length, position) in gone.into_iter().chain([(1025, 0), (1025, 1025), (65535, 0)]) {
            for yes in [0, 1] {
                records.judge(&base.clone().with(place, &hand(length, position)).with(place, &[yes]));
            }
        }
    }
    let data = ALL.into_iter().flat_map(|place| [host_side(place) + 9, controller_side(place) + 5]);
    for place in [HEARING + 3, ASKING + 3].into_iter().chain(data) {
        for length in [255, 256, 1023, 1024, 1025, 1280, 65535] {
            records.judge(&base.clone().with(place, &wide(length)));
        }
    }
}

/// Counts of credits against grants, and payloads of what is open and closed.
fn counts(records: &mut Records, base: &Made) {
    for place in ALL {
        for at in [host_side(place) + 2, controller_side(place) + 1] {
            for pair in [[0, 0], [0, 1], [8, 8], [8, 9], [254, 255], [255, 255]] {
                records.judge(&base.clone().with(at, &pair));
            }
        }
        for yes in [0, 1] {
            [0, 1, 255]
                .iter()
                .for_each(|payload| records.judge(&base.clone().with(host_side(place), &[yes, *payload])));
        }
    }
}

fn states_and_rings(records: &mut Records, base: &Made) {
    for rf in 0..8 {
        [0, 1, 2, 255]
            .iter()
            .for_each(|first| records.judge(&base.clone().with(RF, &[rf, *first, 0x77, 0x99])));
    }
    let stores = ALL.map(|place| (controller_side(place) + 3, 8));
    for (place, slots) in [(DOWN, 16), (UP, 16)].into_iter().chain(stores) {
        for head in [0, slots - 1, slots] {
            [0, slots, slots + 1]
                .iter()
                .for_each(|count| records.judge(&base.clone().with(place, &[head, *count])));
        }
    }
    (0..8).for_each(|given| records.judge(&base.clone().with(GIVEN, &[given])));
}

fn terms_and_sizes(records: &mut Records, base: &Made) {
    for pair in 0..5 {
        for credits in (0..10).chain([128, 254, 255]) {
            records.judge(&base.clone().with(2 + 2 * pair, &[credits]));
        }
        [0, 1, 128, 255]
            .iter()
            .for_each(|payload| records.judge(&base.clone().with(1 + 2 * pair, &[*payload])));
    }
    for control in [31, 32, 255] {
        [31, 32, 255]
            .iter()
            .for_each(|size| records.judge(&base.clone().with(0, &[control]).with(SIZE, &[*size])));
    }
}

#[test]
fn octets_that_are_judged_together() {
    let mut records = Records::new("octets that are judged together", calls());
    let base = ready(&FIRST);
    messages(&mut records, &base);
    counts(&mut records, &base);
    states_and_rings(&mut records, &base);
    terms_and_sizes(&mut records, &base);
    records.end(244, 235);
}

// ---- areas

/// Areas of thirteen lengths, with a good record, with some that row 1 refuses, and with less than
/// a whole one.
#[test]
fn lengths_of_the_area() {
    let (mut both, mut answers) = (Both::default(), [0_u64; 3]);
    let whole = busy().record().to_vec();
    let but = |place: usize, octet: u8| [&whole[..place], &[octet], &whole[place + 1..]].concat();
    let (bad_ring, bad_value) = (but(RECORD - 1, 0x11), but(PF_BIT_RATE, 0));
    let parts = [&whole[..77], &whole[..RECORD - 1], &whole[..RECORD]];
    let records = [&whole[..], &bad_ring, &bad_value, &[0; SAID], &[], parts[0], parts[1], parts[2]];
    let ends = [RECORD_AT, RECORD_AT + 1, RECORD_AT + RECORD, RECORD_AT + SAID, AREA - 1];
    let short = [&[0, 1, RECORD, 512][..], &ends].concat();
    for area in short.into_iter().chain([AREA, AREA + 1, AREA + PAST - 1, AREA + PAST]) {
        for record in records {
            let mut octets = vec![0xA5; AREA];
            octets[RECORD_AT..][..record.len()].copy_from_slice(record);
            both.put(&octets);
            let sound = both.second.clone();
            answers[if area < AREA { 2 } else { usize::from(sound.is_none()) }] += 1;
            for call in calls() {
                both.put(&octets);
                let seen = both.lent.call(&call, Room { area, buffer: BUFFER }).unwrap();
                let due = match &sound {
                    _ if area < AREA => 2,
                    None => 1,
                    Some(bench) => word::of(&bench.clone().play(&call)),
                };
                assert_eq!(seen.word, due, "{} in {area} octets", call.name());
            }
        }
    }
    println!("cases={} group=\"lengths of the area\" answered={answers:?}", answers.iter().sum::<u64>());
    assert_eq!(answers, [4, 28, 72]);
}
