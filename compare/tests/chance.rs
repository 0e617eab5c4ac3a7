//! Records by chance, on both benches: sound ones with every part anywhere inside its limits, and
//! with octets that no case uses set to anything; the same with an octet changed; any octets.

use compare::group::Group;
use compare::made::{controller_side, host_side, Made, LISTEN_ACTIVE, POLL_ACTIVE, W4_HOST_SELECT};
use compare::made::{ASKED, ASKING, CONFIG, DOWN, ENDPOINT, FOUND, HEARING, PAIRS, PHASE, RF, SIZE};
use compare::record::{INFO_ROOM, RECORD, SAID};
use exam_bench::call::Call;
use exam_bench::player::Random;

const SOUND: usize = 250;
const ANY: usize = 50;

/// A number up to a most, in two octets.
fn wide(random: &mut Random, most: usize) -> [u8; 2] {
    (random.below(most + 1) as u16).to_be_bytes()
}

fn up_to(random: &mut Random, most: usize) -> u8 {
    random.below(most + 1) as u8
}

fn run(random: &mut Random, most: usize) -> [u8; 3] {
    let [high, low] = wide(random, most);
    [high, low, up_to(random, 1)]
}

/// Any message, whether it is in hand or not; no more of it is gone than there is.
fn hand(random: &mut Random) -> [u8; 5] {
    let [a, b] = wide(random, 1024);
    let [c, d] = wide(random, usize::from(u16::from_be_bytes([a, b])));
    [up_to(random, 1), a, b, c, d]
}

fn control_run(random: &mut Random) -> Vec<u8> {
    [random.octets(3), run(random, 255).to_vec()].concat()
}

fn profile(random: &mut Random) -> [u8; 11] {
    let mut profile = [32 + up_to(random, 223); 11];
    for pair in profile[1..].chunks_exact_mut(2) {
        pair.copy_from_slice(&[1 + up_to(random, 254), random.pick(&[1, 2, 4, 8, 255])]);
    }
    profile
}

/// The sides of the connection at a place, open or closed, with counts up to any grant.
fn connection(random: &mut Random, made: Made, place: usize) -> Made {
    let (at_host, at_controller) = (random.octet(), random.octet());
    let host = [up_to(random, 1), 1 + up_to(random, 254), at_host, up_to(random, at_host.into())];
    let controller = [up_to(random, 1), at_controller, up_to(random, at_controller.into())];
    let store = [up_to(random, 7), up_to(random, 8)];
    made.with(host_side(place), &[&host[..], &hand(random), &run(random, 1024)].concat())
        .with(controller_side(place), &[&controller[..], &store, &run(random, 1024)].concat())
}

/// A value for each parameter, PI_B_H_INFO of any length.
fn values(random: &mut Random) -> Vec<u8> {
    let length = random.below(INFO_ROOM + 1);
    let mut info = random.octets(length);
    info.resize(INFO_ROOM, 0);
    let rate = random.pick(&[0, 1, 2, 3, 4, 5, 6, 0x20, 0x80, 0xFE]);
    let mut values = vec![up_to(random, 1), random.octet(), random.octet(), up_to(random, 1)];
    values.extend([random.octet(), random.octet(), 1 + up_to(random, 1), up_to(random, 1), random.octet()]);
    values.push(length as u8);
    values.extend(info);
    values.extend([up_to(random, 3), up_to(random, 1), random.octet(), random.octet(), rate]);
    values
}

fn sound(random: &mut Random) -> Made {
    let rf = up_to(random, 6);
    let chosen = if rf == W4_HOST_SELECT { up_to(random, 1) } else { random.octet() };
    let mut made = Made::cold(&profile(random))
        .with(SIZE, &[32 + up_to(random, 223), up_to(random, 1)])
        .with(ASKED + 1, &random.octets(3))
        .with(HEARING, &control_run(random))
        .with(PHASE, &[up_to(random, 2), random.pick(&[0, 2, 3, 4, 5])])
        .with(RF, &[rf, chosen, random.octet(), random.octet()])
        .with(PAIRS, &random.octets(16))
        .with(FOUND, &[up_to(random, 8)])
        .with(ASKING, &control_run(random))
        .with(ENDPOINT, &hand(random))
        .with(DOWN, &[up_to(random, 15), up_to(random, 16), up_to(random, 15), up_to(random, 16)])
        .with(CONFIG, &values(random));
    for place in 0..5 {
        made = connection(random, made, place);
    }
    made
}

fn calls() -> Vec<Call> {
    let mut calls = vec![Call::Power, Call::Down, Call::Up, Call::Credit, Call::Reply, Call::Run];
    calls.push(Call::Air(vec![6]));
    calls.push(Call::Command { gid: 0, oid: 5, payload: vec![3] });
    for conn in [0, 2, 3, 4, 5] {
        calls.push(Call::Send { conn, message: vec![7; 9] });
        calls.extend([Call::Push(conn), Call::Consume(conn), Call::Report(conn)]);
    }
    calls
}

/// Makes all calls on a record, and says whether it is sound.
fn judge(group: &mut Group, made: &Made) -> bool {
    let calls = calls();
    let refused = calls.iter().filter(|call| group.case(made, call).is_none()).count();
    assert!(refused == 0 || refused == calls.len(), "{:02X?}", made.record());
    refused == 0
}

#[test]
fn records_by_chance() {
    let (mut random, mut group) = (Random::new(RECORD as u64), Group::new("records by chance"));
    let (mut changed_sound, mut unused) = (0, 0);
    for number in 0..SOUND {
        let made = sound(&mut random);
        let record = made.record();
        unused += u64::from(record[ASKED] == 0 && record[ASKED + 1..ASKED + 4] != [0; 3]);
        unused += u64::from(![W4_HOST_SELECT, POLL_ACTIVE, LISTEN_ACTIVE].contains(&record[RF]));
        assert!(judge(&mut group, &made), "{record:02X?}");
        if number % 2 == 1 {
            let place = random.below(SAID);
            changed_sound += u64::from(judge(&mut group, &made.with(place, &[random.octet()])));
        }
    }
    for _ in 0..ANY {
        let any = Made::cold(&[32; 11]).with(0, &random.octets(SAID));
        assert!(!judge(&mut group, &any));
    }
    let records = group.cases() / calls().len() as u64;
    println!("cases={records} group={:?} changed-sound={changed_sound} unused={unused}", group.name());
    assert_eq!((records, changed_sound, unused), (425, 58, 260));
}
