//! What report counts on the wires, from wire octets (document 01, "report", and
//! document 02, item 3): the header of each packet is read, and of the payloads those of
//! credit notices, create responses and activations alone.

use std::collections::VecDeque;

use crate::connection::STATIC_RF;
use crate::layout::{self, Response, CORE, CORE_CONN_CREATE, CORE_CONN_CREDITS, RF, RF_INTF_ACTIVATED};
use crate::packet::{self, MessageType, Packet, Reading};
use crate::profile::Terms;

/// The packets of a wire, taken apart by their headers. A payload is measured here and not
/// read.
fn packets(wire: &VecDeque<Vec<u8>>) -> impl Iterator<Item = Packet<'_>> {
    wire.iter().filter_map(|octets| match packet::read(octets) {
        Reading::Packet(packet) => Some(packet),
        Reading::Drop => None,
    })
}

/// Data packets of a connection: what report counts on the down wire.
pub fn data_packets(wire: &VecDeque<Vec<u8>>, conn: u8) -> usize {
    let is_of_conn = |packet: &Packet| packet.message_type == MessageType::Data && packet.id == conn;
    packets(wire).filter(is_of_conn).count()
}

/// Credits for a connection: what report counts on the up wire. A grant counts while its
/// packet is unread.
pub fn credits(wire: &VecDeque<Vec<u8>>, conn: u8) -> usize {
    packets(wire).map(|packet| usize::from(credits_in(&packet, conn))).sum()
}

/// Those of data are in its header. The controller writes each of the other three in one
/// packet, and only written contents count (decision on the fifth number).
fn credits_in(packet: &Packet, conn: u8) -> u8 {
    match (packet.message_type, packet.id, packet.oid) {
        (MessageType::Data, id, _) if id == conn => packet.credits,
        _ if packet.more => 0,
        (MessageType::Notification, CORE, CORE_CONN_CREDITS) => in_notice(packet.payload, conn),
        (MessageType::Response, CORE, CORE_CONN_CREATE) => in_create_rsp(packet.payload, conn),
        (MessageType::Notification, RF, RF_INTF_ACTIVATED) if conn == STATIC_RF => {
            layout::read_activated_ntf(packet.payload).map_or(0, grant_of)
        }
        _ => 0,
    }
}

/// A notice has at most one entry for a connection.
fn in_notice(payload: &[u8], conn: u8) -> u8 {
    let entries = layout::read_credits_ntf(payload).unwrap_or_default();
    entries.iter().find(|(of, _)| *of == conn).map_or(0, |(_, credits)| *credits)
}

fn in_create_rsp(payload: &[u8], conn: u8) -> u8 {
    match layout::read_create_rsp(payload) {
        Some(Response::Created { conn: opened, terms }) if opened == conn => grant_of(terms),
        _ => 0,
    }
}

/// An opening without flow control grants nothing that is counted.
fn grant_of(terms: Terms) -> u8 {
    if terms.flow_controlled() {
        terms.credits
    } else {
        0
    }
}

#[cfg(test)]
mod tests {
    use super::*;
    use crate::layout::{write_activated_ntf, write_create_rsp, write_credits_ntf, Endpoint, Notification};
    use crate::player::Random;

    /// The Conn IDs of the bench, and some that it does not have.
    const CONNS: [u8; 9] = [0, 1, 2, 3, 4, 5, 6, 0x12, 0x20];
    const TERMS: Terms = Terms { payload: 4, credits: 2 };

    /// What one packet counts for.
    fn counted(octets: &[u8], conn: u8) -> usize {
        credits(&VecDeque::from([octets.to_vec()]), conn)
    }

    /// The count as it was: every payload went through the host's readers.
    fn former(octets: &[u8], conn: u8) -> usize {
        let Reading::Packet(packet) = packet::read(octets) else {
            return 0;
        };
        let credits = match packet.message_type {
            MessageType::Data if packet.id == conn => packet.credits,
            MessageType::Response if !packet.more => granted_by_response(&packet, conn),
            MessageType::Notification if !packet.more => carried_by_notification(&packet, conn),
            _ => 0,
        };
        usize::from(credits)
    }

    fn granted_by_response(packet: &Packet, conn: u8) -> u8 {
        match layout::read_response(packet.id, packet.oid, packet.payload) {
            Some(Response::Created { conn: opened, terms }) if opened == conn => grant_of(terms),
            _ => 0,
        }
    }

    fn carried_by_notification(packet: &Packet, conn: u8) -> u8 {
        match layout::read_notification(packet.id, packet.oid, packet.payload) {
            Some(Notification::Activated(terms)) if conn == STATIC_RF => grant_of(terms),
            Some(Notification::Credits(entries)) => {
                entries.iter().filter(|entry| entry.0 == conn).map(|entry| entry.1).sum()
            }
            _ => 0,
        }
    }

    /// Both counts agree for every connection; how many of them it counts for.
    fn check_agree(octets: &[u8]) -> usize {
        let wire = VecDeque::from([octets.to_vec()]);
        let counts_for = |conn: &u8| {
            let count = credits(&wire, *conn);
            assert_eq!(count, former(octets, *conn), "{octets:02X?} for {conn}");
            count > 0
        };
        CONNS.iter().filter(|conn| counts_for(conn)).count()
    }

    fn activation(mode: u8, parameters: &[u8], terms: Terms) -> Vec<u8> {
        write_activated_ntf(&Endpoint { id: 1, protocol: 4, mode, parameters }, terms)
    }

    /// The three messages as they are written here.
    fn written() -> Vec<Vec<u8>> {
        let five = [(0, 1), (2, 2), (3, 3), (4, 7), (5, 8)];
        let unlimited = Terms { payload: 255, credits: 255 };
        let notices = [&five[..], &five[1..], &five[..3], &five[3..], &five[..1], &five[1..2]];
        let mut packets: Vec<Vec<u8>> = notices.iter().map(|entries| write_credits_ntf(entries)).collect();
        packets.extend((2..=5).map(|conn| write_create_rsp(TERMS, conn)));
        packets.push(write_create_rsp(unlimited, 2));
        packets.extend([activation(0, &[], TERMS), activation(0x83, &[0; 4], Terms { credits: 8, ..TERMS })]);
        packets.extend([activation(6, &[9; 32], TERMS), activation(0x80, &[], unlimited)]);
        packets
    }

    fn with_header(header: [u8; 2], payload: &[u8]) -> Vec<u8> {
        [&header[..], &[payload.len() as u8], payload].concat()
    }

    // The former count.

    /// Every MT, PBF, GID or Conn ID, OID and spare bit, over payloads of all three.
    #[test]
    fn as_before_under_every_header() {
        let init = layout::write_init_rsp(64);
        let found = layout::write_discover_ntf(&Endpoint { id: 1, protocol: 2, mode: 2, parameters: &[] }, 2);
        let mut payloads: Vec<Vec<u8>> = written().iter().map(|octets| octets[3..].to_vec()).collect();
        payloads.extend([init[3..].to_vec(), found[3..].to_vec(), vec![], vec![0], vec![1], vec![0; 255]]);
        let mut counting = 0;
        for header in (0..=255).flat_map(|first| (0..=255).map(move |second| [first, second])) {
            let packets = payloads.iter().map(|payload| check_agree(&with_header(header, payload)));
            counting += usize::from(packets.sum::<usize>() > 0);
        }
        // Data of one of the Conn IDs with CR above 0, and the three under any spare bits.
        assert_eq!(counting, 7 * 2 * 192 + 3 * 4);
    }

    /// One octet at every value, in the header and in the payload.
    #[test]
    fn as_before_one_octet_off() {
        for packet in written() {
            let places = (0..packet.len()).flat_map(|place| (0..=255).map(move |octet| (place, octet)));
            for (place, octet) in places {
                let mut octets = packet.clone();
                octets[place] = octet;
                check_agree(&octets);
                // the header says so, or the packet is dropped for what it lacks
                octets.resize(3 + usize::from(octets[2]), 0);
                check_agree(&octets);
            }
        }
    }

    /// Every length from none on, under the header of each, spare bits and PBF set too.
    #[test]
    fn as_before_at_other_lengths() {
        for packet in written() {
            for (length, second) in (0..=60).flat_map(|length| [0x00, 0xC0].map(|spare| (length, spare))) {
                let mut payload = packet[3..].to_vec();
                payload.resize(length, 0);
                for first in [packet[0], packet[0] | 0x10] {
                    let counts = check_agree(&with_header([first, packet[1] | second], &payload));
                    assert!(counts == 0 || length + 3 == packet.len());
                }
            }
        }
    }

    #[test]
    fn as_before_on_random_packets() {
        let (mut random, mut counting) = (Random::new(23), 0);
        for _ in 0..200_000 {
            let mut octets = if random.chance(50) {
                let length = random.below(30);
                random.octets(length)
            } else {
                let written = written();
                written[random.below(written.len())].clone()
            };
            for _ in 0..random.below(4) {
                let place = random.below(octets.len() + 1);
                match octets.get_mut(place) {
                    Some(octet) => *octet = random.pick(&[0, 1, 2, 4, 5, 6, 8, 0x40, 0x60, 0x61, 0xFF]),
                    None => octets.push(random.octet()),
                }
            }
            counting += check_agree(&octets);
        }
        assert!(counting > 10_000, "{counting}");
    }

    // By hand.

    #[test]
    fn credits_are_counted_from_octets() {
        assert_eq!(counted(&[0x40, 0x04, 0x04, 0, 4, 2, 3], 3), 2);
        assert_eq!(counted(&[0x40, 0x04, 0x04, 0, 4, 2, 3], 2), 0);
        assert_eq!(counted(&[0x40, 0x04, 0x04, 0, 4, 255, 3], 3), 0);
        assert_eq!(counted(&[0x40, 0x04, 0x01, 1], 2), 0);
        assert_eq!(counted(&[0x60, 0x06, 0x05, 2, 0, 1, 5, 8], 5), 8);
        assert_eq!(counted(&[0x70, 0x06, 0x05, 2, 0, 1, 5, 8], 5), 0);
        assert_eq!(counted(&[0x60, 0x06, 0x05, 2, 0, 1, 5, 9], 0), 0);
        for first in [0x03, 0x13] {
            assert_eq!(counted(&[first, 0x02, 0x01, 9], 3), 2);
            assert_eq!(counted(&[first, 0xFF, 0x01, 9], 3), 3);
            assert_eq!(counted(&[first, 0xFC, 0x01, 9], 3), 0);
            assert_eq!(counted(&[first, 0x02, 0x01, 9], 2), 0);
            assert_eq!(counted(&[first, 0x02, 0x01], 3), 0);
        }
        assert_eq!(counted(&activation(0, &[], TERMS), 0), 2);
        assert_eq!(counted(&activation(0, &[], TERMS), 2), 0);
    }
}
