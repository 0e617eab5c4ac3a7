//! Credits owed and held, on both benches: each side of each connection, counts and grants at
//! their edges. Where a count is past its grant the record is damaged, and the answer is 1.

use compare::group::Group;
use compare::made::{controller_side, heard, host_side, AtHost, Made, EDGES};
use exam_bench::call::Call;
use exam_bench::connection::CONN_IDS;

/// A connection's grant, and whether it is open.
type Side = (u8, bool);

const CLOSED: Side = (0, false);
/// Closed, without flow control, flow-controlled.
const SIDES: [Side; 3] = [(8, false), (255, true), (8, true)];

fn alone() -> Made {
    AtHost::alone(0b01011).made()
}

/// A notice of a controller whose five connections owe so much.
fn owing(group: &mut Group, sides: [Side; 5], credits: [u8; 5]) {
    let mut made = alone();
    for (place, ((grant, open), owed)) in sides.into_iter().zip(credits).enumerate() {
        made = made.with(controller_side(place), &[u8::from(open), grant, owed, 6, 3, 2, 1, 0]);
    }
    group.case(&made, &Call::Credit);
}

/// A packet to a host whose five connections hold so much.
fn holding(group: &mut Group, sides: [Side; 5], credits: [u8; 5], packet: &[u8]) {
    let mut made = alone();
    for (place, ((grant, open), held)) in sides.into_iter().zip(credits).enumerate() {
        made = made.with(host_side(place), &[u8::from(open), 1, grant, held, 1, 2, 88, 1, 44, 1, 2, 0]);
    }
    group.hear(&heard(made, packet));
}

fn notice(entries: &[[u8; 2]]) -> Vec<u8> {
    let octets = entries.concat();
    [&[0x60, 0x06, 1 + octets.len() as u8, entries.len() as u8], &octets[..]].concat()
}

/// Every choice of a side for each of the five.
fn choices() -> Vec<[usize; 5]> {
    (0..243).map(|number| [81, 27, 9, 3, 1].map(|step| number / step % 3)).collect()
}

/// One of the five as it is given, the others closed.
fn only(place: usize, side: Side) -> [Side; 5] {
    let mut sides = [CLOSED; 5];
    sides[place] = side;
    sides
}

/// What a notice pays, and what it leaves.
#[test]
fn credits_owed() {
    let mut group = Group::new("credits owed");
    for set in 0..32 {
        for credits in [1, 8] {
            let owed = [0, 1, 2, 3, 4].map(|place| if set >> place & 1 == 1 { credits } else { 0 });
            owing(&mut group, [SIDES[2]; 5], owed);
        }
    }
    for choice in choices() {
        let sides = choice.map(|side| SIDES[side]);
        owing(&mut group, sides, [1, 2, 3, 4, 8]);
        owing(&mut group, sides, choice.map(|side| u8::from(side < 2)));
    }
    for place in 0..5 {
        for owed in [0, 1, 8, 9, 254, 255] {
            for grant in [0, 1, 8, 254, 255] {
                for open in [false, true] {
                    let mut credits = [0; 5];
                    credits[place] = owed;
                    owing(&mut group, only(place, (grant, open)), credits);
                }
            }
        }
    }
    group.end(850, &[("answer 0", 308), ("answer 1", 130), ("answer 8", 412)]);
}

/// What a notice adds: each side of each connection, each sum modulo 256, and contents that are
/// never written.
#[test]
fn credits_held() {
    let mut group = Group::new("credits held");
    let five = notice(&CONN_IDS.map(|conn| [conn, 1 + conn]));
    for choice in choices() {
        holding(&mut group, choice.map(|side| SIDES[side]), [0, 1, 2, 3, 5], &five);
    }
    for credits in [0, 1, 7, 8, 9] {
        for held in EDGES {
            for grant in [8, 254, 255] {
                let mut counts = [0; 5];
                counts[2] = held;
                holding(&mut group, only(2, (grant, true)), counts, &notice(&[[3, credits]]));
            }
        }
    }
    for a in 0..5 {
        for b in a + 1..5 {
            for [first, second] in [[a, b], [b, a]] {
                let entries = [[CONN_IDS[first], 8], [CONN_IDS[second], 8]];
                holding(&mut group, [(254, true); 5], [254, 253, 0, 248, 247], &notice(&entries));
            }
        }
    }
    holding(&mut group, [SIDES[2]; 5], [1, 2, 3, 4, 5], &[0x60, 0xC6, 3, 1, 0, 1, 0xFF]);
    group.end(669, &[("answer 1", 95), ("dropped", 211), ("taken", 363)]);
}
