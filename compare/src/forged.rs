//! Packets that nobody wrote, for the wires: some that look like credits and are none, some
//! that are.

use exam_bench::connection::CONN_IDS;
use exam_bench::layout::{self, Endpoint, MOST_PARAMETERS};
use exam_bench::player::Random;
use exam_bench::profile::Terms;

/// PBF of octet 0, and the spare bits of a control packet's octet 1.
const MORE: u8 = 0x10;
const SPARE: [u8; 3] = [0x40, 0x80, 0xC0];

/// What a forged packet is.
#[derive(Clone, Copy, Debug, PartialEq, Eq)]
pub enum Kind {
    /// These and `Other` have payloads that look like credits.
    Init,
    Discover,
    Data,
    /// Any header but those of the three messages that have credits in their contents.
    Other,
    /// A create response with PBF 1, and the other two with it.
    CreateMore,
    More,
    /// A create response of other than four octets.
    CreateLength,
    /// One of the three with contents that were never written here.
    Unwritten,
    /// One of the three as it is written, and with spare bits set.
    Written,
    Spare,
}

impl Kind {
    pub const ALL: [Kind; 10] = [
        Kind::Init,
        Kind::Discover,
        Kind::Data,
        Kind::Other,
        Kind::CreateMore,
        Kind::More,
        Kind::CreateLength,
        Kind::Unwritten,
        Kind::Written,
        Kind::Spare,
    ];
    /// By place.
    pub const NAMES: [&'static str; 10] = [
        "init",
        "discover",
        "data",
        "other",
        "create-more",
        "more",
        "create-length",
        "unwritten",
        "written",
        "spare",
    ];
}

/// Whether report looks into a packet: a credit notice, a create response of four octets or
/// an activation, with PBF 0.
pub fn is_looked_into(packet: &[u8]) -> bool {
    match [packet[0], packet[1] & 0x3F] {
        [0x60, 0x06] | [0x61, 0x05] => true,
        [0x40, 0x04] => packet[2] == 4,
        _ => false,
    }
}

/// A packet of this kind.
pub fn forge(kind: Kind, random: &mut Random) -> Vec<u8> {
    match kind {
        Kind::Init => with_header(0x40, 0x01, like_credits(random)),
        Kind::Discover => with_header(0x61, 0x03, like_credits(random)),
        Kind::Data => {
            let first = random.pick(&CONN_IDS) | random.pick(&[0, MORE]);
            with_header(first, random.octet(), like_credits(random))
        }
        Kind::Other => other(random),
        Kind::CreateMore => changed(create_rsp(random), |packet| packet[0] |= MORE),
        Kind::More => {
            let packet = if random.chance(50) { notice(random) } else { activation(random) };
            changed(packet, |packet| packet[0] |= MORE)
        }
        Kind::CreateLength => {
            let mut payload = create_rsp(random)[3..].to_vec();
            payload.resize(random.pick(&[0, 1, 2, 3, 5, 6, 8, 255]), 0);
            with_header(0x40, 0x04, payload)
        }
        Kind::Unwritten => unwritten(random),
        Kind::Written => written(random),
        Kind::Spare => changed(written(random), |packet| packet[1] |= random.pick(&SPARE)),
    }
}

fn with_header(first: u8, second: u8, payload: Vec<u8>) -> Vec<u8> {
    [vec![first, second, payload.len() as u8], payload].concat()
}

fn changed(mut packet: Vec<u8>, change: impl FnOnce(&mut [u8])) -> Vec<u8> {
    change(&mut packet);
    packet
}

/// The payload of one of the three, at times with more octets behind it, or its whole packet.
pub fn like_credits(random: &mut Random) -> Vec<u8> {
    let mut payload = written(random);
    if random.chance(80) {
        payload.drain(..3);
    }
    let behind = random.pick(&[0, 0, 0, 1, 13, 200]);
    payload.extend(random.octets(behind));
    payload
}

/// Any MT, PBF, GID, OID and spare bits, often one bit from those of the three.
fn other(random: &mut Random) -> Vec<u8> {
    loop {
        let mut header = [random.octet(), random.octet()];
        if random.chance(50) {
            header = random.pick(&[[0x60, 0x06], [0x40, 0x04], [0x61, 0x05]]);
            header[random.below(2)] ^= 1 << random.below(8);
        }
        let packet = with_header(header[0], header[1], like_credits(random));
        if !is_looked_into(&packet) {
            return packet;
        }
    }
}

// The three.

fn written(random: &mut Random) -> Vec<u8> {
    match random.below(3) {
        0 => notice(random),
        1 => create_rsp(random),
        _ => activation(random),
    }
}

/// One octet of the contents outside its limits, or one octet too many or too few.
fn unwritten(random: &mut Random) -> Vec<u8> {
    let (packet, places): (Vec<u8>, &[(usize, u8)]) = match random.below(3) {
        0 => (notice(random), &[(0, 0), (0, 6), (1, 1), (1, 6), (2, 0), (2, 9)]),
        1 => (create_rsp(random), &[(0, 1), (1, 0), (2, 0), (2, 9), (3, 0), (3, 6)]),
        _ => (activation(random), &[(0, 0), (0, 255), (1, 2), (3, 4), (4, 0), (5, 9), (6, 33)]),
    };
    let mut payload = packet[3..].to_vec();
    match random.below(4) {
        0 if packet[1] != 0x04 => payload.push(0),
        1 if packet[1] != 0x04 => payload.truncate(payload.len() - 1),
        _ => {
            let (place, octet) = random.pick(places);
            payload[place] = octet;
        }
    }
    with_header(packet[0], packet[1], payload)
}

fn notice(random: &mut Random) -> Vec<u8> {
    let certain = random.pick(&CONN_IDS);
    let mut entries = Vec::new();
    for conn in CONN_IDS {
        if conn == certain || random.chance(30) {
            entries.push((conn, 1 + random.below(8) as u8));
        }
    }
    layout::write_credits_ntf(&entries)
}

fn terms(random: &mut Random) -> Terms {
    Terms { payload: random.pick(&[1, 4, 255]), credits: random.pick(&[1, 2, 8, 8, 255]) }
}

fn create_rsp(random: &mut Random) -> Vec<u8> {
    let conn = random.pick(&CONN_IDS[1..]);
    layout::write_create_rsp(terms(random), conn)
}

fn activation(random: &mut Random) -> Vec<u8> {
    let count = random.pick(&[0, 0, 1, MOST_PARAMETERS]);
    let parameters = random.octets(count);
    let (id, protocol) = (1 + random.below(254) as u8, random.octet());
    let mode = random.pick(&[0x00, 0x03, 0x06, 0x80, 0x83]);
    layout::write_activated_ntf(&Endpoint { id, protocol, mode, parameters: &parameters }, terms(random))
}
