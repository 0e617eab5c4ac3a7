//! Octets for read: packets of every kind, whole, cut, or with octets to spare, and noise.

use super::Random;
use crate::packet::MOST_PACKET;

/// Octets past a packet's end.
const SPARE: [usize; 4] = [1, 2, 9, 100];
/// Lengths about the limit, and one of a line's longest.
const LENGTHS: [usize; 6] =
    [MOST_PACKET - 1, MOST_PACKET, MOST_PACKET, MOST_PACKET + 1, MOST_PACKET + 2, 1044];
/// Most octets of noise.
const NOISE: usize = 300;

/// Octets that read is worth asking of.
pub fn octets_to_read(random: &mut Random) -> Vec<u8> {
    let mut octets = whole_packet(random);
    match random.below(20) {
        0..=2 => octets.truncate(random.below(octets.len())),
        3..=4 => {
            let spare = random.pick(&SPARE);
            octets.extend(random.octets(spare));
        }
        5..=6 => octets.resize(random.pick(&LENGTHS), 0xA5),
        7 => {
            let count = random.below(NOISE);
            octets = random.octets(count);
        }
        _ => {}
    }
    octets
}

/// A header with its payload: any MT, mostly one that is not RFU, and of octet 1 none of
/// the bits, one or some.
fn whole_packet(random: &mut Random) -> Vec<u8> {
    let (any, one, some) = (random.octet(), 1 << random.below(8), random.octet());
    let message_type = random.pick(&[0, 0, 0, 1, 2, 3, 3, any >> 5]);
    let second = random.pick(&[0, one, one, some, some]);
    let few = some % 8;
    let length = random.pick(&[0, 1, few, few, few, 32, 254, 255]);
    [&[message_type << 5 | any & 0x1F, second, length][..], &random.octets(length.into())].concat()
}
