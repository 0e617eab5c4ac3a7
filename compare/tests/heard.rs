//! Control messages at the host, on both benches: those that the controller writes, and those
//! that it never writes, as packets that nobody wrote.

use compare::group::Group;
use compare::made::{heard, AtHost, EDGES};
use exam_bench::call::Call;
use exam_bench::connection::CONN_IDS;

const RESPONSE: u8 = 2;
const NOTIFICATION: u8 = 3;

/// GID, OID and payload of a message of each kind, as the controller writes it; the last two
/// are of no command that there is.
const RESPONSES: [(u8, u8, &[u8]); 13] = [
    (0, 0, &[0]),
    (0, 1, &[0, 0, 0, 0, 0, 4, 0, 0, 32, 0, 0, 0, 0, 1, 1, 0]),
    (0, 2, &[0, 0]),
    (0, 2, &[9, 3, 0x12, 0x08, 0x12]),
    (0, 3, &[0, 4, 0x08, 1, 1, 0x20, 0, 0x18, 1, 2, 0x20, 2, 0, 255]),
    (0, 3, &[9, 2, 0x12, 0, 0x03, 0]),
    (0, 4, &[0, 4, 2, 3]),
    (0, 5, &[0]),
    (1, 3, &[0]),
    (1, 4, &[0]),
    (1, 6, &[0]),
    (0, 0x0B, &[0]),
    (5, 63, &[0]),
];
/// The same of notifications; the last is none that there is.
const NOTICES: [(u8, u8, &[u8]); 7] = [
    (0, 0, &[2, 1, 0x20, 0, 0]),
    (0, 6, &[3, 0, 1, 2, 8, 5, 8]),
    (0, 7, &[0xA1]),
    (1, 3, &[1, 4, 0, 2, 0xAA, 0xBB, 2]),
    (1, 5, &[1, 1, 4, 0x80, 4, 2, 2, 0xAA, 0xBB, 0x80, 0, 0, 0]),
    (1, 6, &[0, 0]),
    (0, 8, &[0, 0]),
];
const STATUSES: [u8; 12] = [0, 1, 2, 3, 4, 5, 6, 9, 0x0A, 0xA0, 0xA1, 0xFF];

/// Connections 0, 2 and 4 are open.
fn alone() -> AtHost {
    AtHost::alone(0b01011)
}

fn awaiting(gid: u8, oid: u8) -> AtHost {
    alone().awaiting(gid, oid, 2)
}

fn packet(mt: u8, gid: u8, oid: u8, payload: &[u8]) -> Vec<u8> {
    [&[mt << 5 | gid, oid, payload.len() as u8], payload].concat()
}

fn response(group: &mut Group, host: AtHost, gid: u8, oid: u8, payload: &[u8]) {
    group.hear(&host.given(&packet(RESPONSE, gid, oid, payload)));
}

fn notification(group: &mut Group, host: AtHost, gid: u8, oid: u8, payload: &[u8]) {
    group.hear(&host.given(&packet(NOTIFICATION, gid, oid, payload)));
}

/// A message with an octet less or more, and with each octet one less, one more, 00 and FF.
fn variants(message: &[u8]) -> Vec<Vec<u8>> {
    let mut variants = vec![message.to_vec(), message[..message.len() - 1].to_vec(), vec![]];
    for length in [message.len() + 1, 255] {
        let mut longer = message.to_vec();
        longer.resize(length, 0);
        variants.push(longer);
    }
    for (place, value) in message.iter().enumerate() {
        let mut others = vec![value.wrapping_sub(1), value.wrapping_add(1), 0, 255];
        others.sort();
        others.dedup();
        for other in others.into_iter().filter(|other| other != value) {
            let mut changed = message.to_vec();
            changed[place] = other;
            variants.push(changed);
        }
    }
    variants
}

/// Each response to each command, with each status, and values of INIT, CONN_CREATE and
/// CONN_CLOSE at and past their limits; those of sets and gets are below.
#[test]
fn responses() {
    let mut group = Group::new("responses at the host");
    for (a, b, whole) in RESPONSES {
        for (gid, oid, payload) in RESPONSES {
            response(&mut group, awaiting(a, b), gid, oid, payload);
        }
        for changed in variants(whole) {
            response(&mut group, awaiting(a, b), a, b, &changed);
        }
        for status in STATUSES {
            for more in [&[][..], &[0], &[0, 0, 0]] {
                if status != 0 || !more.is_empty() {
                    response(&mut group, awaiting(a, b), a, b, &[&[status], more].concat());
                }
            }
        }
        response(&mut group, alone(), a, b, whole);
        response(&mut group, alone(), a, b, &[5]);
    }
    for value in 0..=255 {
        let init = [0, 0, 0, 0, 0, 4, 0, 0, value, 0, 0, 0, 0, 1, 1, 0];
        response(&mut group, awaiting(0, 1), 0, 1, &init);
        response(&mut group, awaiting(0, 4), 0, 4, &[0, 4, value, 3]);
        response(&mut group, awaiting(0, 4), 0, 4, &[0, 4, 2, value]);
    }
    EDGES.iter().for_each(|value| response(&mut group, awaiting(0, 4), 0, 4, &[0, *value, 2, 3]));
    for aim in 0..16 {
        for opened in [0x1F, 0x15, 0x00] {
            response(&mut group, AtHost::alone(opened).awaiting(0, 5, aim), 0, 5, &[0]);
        }
    }
    for opened in 0..32 {
        response(&mut group, AtHost::alone(opened).awaiting(0, 0, 2), 0, 0, &[0]);
        response(&mut group, AtHost::alone(opened).awaiting(0, 4, 2), 0, 4, &[0, 4, 2, 3]);
    }
    group.end(1777, &[("dropped", 178), ("taken", 1599)]);
}

/// A response to a set or a get at a host that awaits it: whether it answers.
fn answers(group: &mut Group, oid: u8, payload: &[u8]) -> u64 {
    u64::from(group.answers(&awaiting(0, oid).given(&packet(RESPONSE, 0, oid, payload))))
}

/// Lists of IDs: each count with as many, one less and one more, after each status.
#[test]
fn set_responses() {
    let (mut group, mut answered) = (Group::new("set responses at the host"), 0);
    for status in STATUSES {
        for count in 0..=253_u8 {
            for ids in [count.saturating_sub(1), count, (count + 1).min(253)] {
                let list: Vec<u8> = (0..ids).map(|place| place.wrapping_mul(7)).collect();
                answered += answers(&mut group, 2, &[&[status, count], &list[..]].concat());
            }
        }
    }
    for id in 0..=255 {
        answered += answers(&mut group, 2, &[9, 1, id]);
        answered += answers(&mut group, 2, &[9, 3, 0x08, id, id]);
        answered += answers(&mut group, 2, &[0, 1, id]);
    }
    // 00 00, where one less is the same; 1 to 127 after 09; each ID twice
    assert_eq!(answered, 2 + 127 + 2 * 256);
    group.end(12 * 254 * 3 + 3 * 256, &[("taken", 12 * 254 * 3 + 3 * 256)]);
}

/// Every ID with each octet for a value, without one, and with other numbers of octets; after OK and
/// after 09.
#[test]
fn values_in_get_responses() {
    let (mut group, mut answered) = (Group::new("values in get responses at the host"), 0);
    for id in 0..=255 {
        for octet in 0..=255 {
            answered += answers(&mut group, 3, &[0, 1, id, 1, octet]);
        }
        for length in [0, 2, 14, 15, 16, 251] {
            answered += answers(&mut group, 3, &[&[0, 1, id, length], &vec![1; length.into()][..]].concat());
        }
        for length in [0, 1, 2] {
            answered += answers(&mut group, 3, &[&[9, 1, id, length], &vec![1; length.into()][..]].concat());
        }
    }
    // eight take every octet, four take two, others 2, 4 and 135; PI_B_H_INFO also has 0, 2, 14 and 15
    // octets; after 09 the unknown ones without any
    assert_eq!(answered, 8 * 256 + 4 * 2 + 2 + 4 + 135 + 4 + 241);
    group.end(265 * 256, &[("taken", 265 * 256)]);
}

/// Lists of each kind, as long as they get: each count, one entry less and more, each octet cut off, octets
/// to spare, and one entry among them that was never written.
#[test]
fn lists_in_get_responses() {
    let (mut group, mut answered) = (Group::new("lists in get responses at the host"), 0);
    let (one, none, unknown) = (&[0x09, 1, 7][..], &[0x20, 0][..], &[0x12, 0][..]);
    for (status, entry, most) in [(0, one, 84_usize), (0, none, 126), (9, unknown, 126)] {
        for count in [0, 1, 2, 3, 50, most - 1, most, most + 1, 255] {
            for entries in [count.min(most), count.saturating_sub(1).min(most), (count + 1).min(most)] {
                answered +=
                    answers(&mut group, 3, &[&[status, count as u8], &entry.repeat(entries)[..]].concat());
            }
        }
        let list = [vec![status, 5], entry.repeat(5)].concat();
        for length in 0..list.len() {
            answered += answers(&mut group, 3, &list[..length]);
        }
        for past in [&[0][..], &[0x09], one, none, unknown] {
            answered += answers(&mut group, 3, &[&list[..], past].concat());
        }
        for place in 0..5 {
            for wrong in [&[0x08, 1, 2][..], &[0x08, 0], &[0x12, 1, 0], one, none, unknown, &[0x12, 255]] {
                let mut entries = vec![entry; 5];
                entries[place] = wrong;
                answered += answers(&mut group, 3, &[vec![status, 5], entries.concat()].concat());
            }
        }
    }
    // of each count its own list, that of none and the longest twice, but none after 09; 09 alone; and an
    // entry of the same kind among them
    assert_eq!(answered, 9 + 9 + 7 + 1 + 10 + 10 + 5);
    group.end(242, &[("taken", 242)]);
}

/// What is heard in segments is judged when it is whole.
#[test]
fn lists_in_segments() {
    let mut group = Group::new("lists of parameters in segments");
    let cases: [(u8, &[u8], bool); 5] = [
        (2, &[9, 2, 0x08, 0x12], true),
        (2, &[9, 3, 0x08, 0x12], false),
        (3, &[0, 2, 0x08, 1, 1, 0x20, 0], true),
        (3, &[0, 2, 0x08, 1, 2, 0x20, 0], false),
        (3, &[9, 1, 0x12, 0], true),
    ];
    for (oid, whole, written) in cases {
        for cut in 0..=whole.len() {
            let rest = awaiting(0, oid).given(&packet(RESPONSE, 0, oid, &whole[cut..]));
            let answered = group.answers(&rest.hearing(RESPONSE, 0, oid, &whole[..cut]));
            assert_eq!(answered, written, "{whole:02X?}");
        }
    }
    group.end(31, &[("taken", 31)]);
}

/// Activations and discoveries with each field at and past its limits.
fn endpoints(group: &mut Group) {
    let closed = AtHost::alone(0);
    for value in 0..=255 {
        notification(group, closed, 1, 5, &[1, 1, 4, value, 4, 2, 0, value, 0, 0, 0]);
        notification(group, closed, 1, 3, &[1, 4, value, 0, 2]);
        notification(group, closed, 0, 7, &[value]);
    }
    for value in EDGES {
        for place in [0, 1, 2, 4, 5] {
            let mut activation = [1, 1, 4, 0x81, 4, 2, 0, 0x81, 0, 0, 0];
            activation[place] = value;
            notification(group, closed, 1, 5, &activation);
        }
    }
    for count in [0_u8, 1, 31, 32, 33, 200] {
        for more in [-1, 0, 1] {
            let parameters: Vec<u8> =
                (0..(i16::from(count) + more).max(0)).map(|octet| octet as u8).collect();
            let activation = [&[1, 1, 4, 0, 4, 2, count], &parameters[..], &[0, 0, 0, 0]].concat();
            notification(group, closed, 1, 5, &activation);
            notification(group, closed, 1, 3, &[&[1, 4, 0, count], &parameters[..], &[1]].concat());
        }
    }
}

#[test]
fn notifications() {
    let mut group = Group::new("notifications at the host");
    for (gid, oid, whole) in NOTICES {
        variants(whole).iter().for_each(|changed| notification(&mut group, alone(), gid, oid, changed));
        for host in [awaiting(0, 0), awaiting(1, 6), AtHost::alone(0)] {
            notification(&mut group, host, gid, oid, whole);
        }
    }
    for gid in 0..16 {
        for oid in (0..10).chain([63]) {
            notification(&mut group, alone(), gid, oid, &[0, 0]);
        }
    }
    for kind in [0, 1, 2, 3, 4, 5, 255] {
        for reason in [0, 1, 2, 3, 4, 5, 255] {
            notification(&mut group, alone(), 1, 6, &[kind, reason]);
        }
    }
    endpoints(&mut group);
    group.end(1341, &[("dropped", 8), ("taken", 1333)]);
}

/// A credit notice with these entries, that states a count of them.
fn notice(entries: &[[u8; 2]], count: usize) -> Vec<u8> {
    packet(NOTIFICATION, 0, 6, &[&[count as u8], entries.concat().as_slice()].concat())
}

fn credits(group: &mut Group, opened: u8, entries: &[[u8; 2]]) {
    group.hear(&AtHost::alone(opened).given(&notice(entries, entries.len())));
}

/// Entries for each set of connections, at hosts where others are open.
fn sets(group: &mut Group) {
    for set in 1..32_u8 {
        let places = (0..5).filter(|place| set >> place & 1 == 1);
        let entries: Vec<[u8; 2]> = places.map(|place| [CONN_IDS[place], 1 + CONN_IDS[place]]).collect();
        let mut opened = vec![0x00, 0x1F, set, set & 0x1D, set ^ 0x1F];
        opened.sort();
        opened.dedup();
        opened.iter().for_each(|opened| credits(group, *opened, &entries));
    }
}

#[test]
fn credit_notices() {
    let mut group = Group::new("credit notices at the host");
    sets(&mut group);
    for value in EDGES {
        credits(&mut group, 0x1F, &[[2, value]]);
        credits(&mut group, 0x1F, &[[0, 8], [5, value]]);
        credits(&mut group, 0x1F, &[[value, 1]]);
        credits(&mut group, 0x1F, &[[0, 1], [value, 1]]);
        let stated = notice(&[[0, 1], [2, 2]], value.into());
        group.hear(&AtHost::alone(0x1F).given(&stated));
    }
    for a in 0..7 {
        (0..7).for_each(|b| credits(&mut group, 0x1F, &[[a, 1], [b, 1]]));
    }
    let five = CONN_IDS.map(|conn| [conn, 1]);
    credits(&mut group, 0x1F, &five);
    credits(&mut group, 0x1F, &[&five[..], &[[5, 1]]].concat());
    credits(&mut group, 0x1F, &[&five[..], &[[6, 1]]].concat());
    credits(&mut group, 0x1F, &[five[0], five[1], five[2], five[4], five[3]]);
    let many = [vec![0x80], [2, 1].repeat(127)].concat();
    let contents: [&[u8]; 8] = [&[], &[0], &[1], &[1, 2], &[1, 2, 1, 0], &[0, 2, 1], &[2, 2, 1], &many];
    for payload in contents {
        notification(&mut group, AtHost::alone(0x1F), 0, 6, payload);
    }
    group.end(333, &[("dropped", 76), ("taken", 257)]);
}

/// Commands, RFU message types, spare bits, packets too long and parts at the host; packets too
/// short, which no slot of a wire holds, are read alone.
#[test]
fn other_packets() {
    let mut group = Group::new("other packets at the host");
    let (gid, oid, payload) = RESPONSES[1];
    let told = packet(RESPONSE, gid, oid, payload);
    for mt in [1, 4, 5, 6, 7] {
        for (gid, oid, _) in RESPONSES {
            group.hear(&awaiting(gid, oid).given(&packet(mt, gid, oid, &[0])));
        }
    }
    for length in [0, 1, 2, 3, 10, told.len() - 1] {
        group.case(&awaiting(0, 1).made(), &Call::Read(told[..length].to_vec()));
    }
    let mut spare = told.clone();
    spare[1] |= 0xC0;
    let mut part = told.clone();
    part[0] |= 0x10;
    let past = [&told[..], &[0xFF, 0xFF]].concat();
    for packet in [told, spare, past, part] {
        group.hear(&heard(awaiting(0, 1).made(), &packet));
    }
    group.hear(&alone().given(&[0, 0, 1, 0xAA]));
    group.end(76, &[("dropped", 71), ("taken", 5)]);
}
