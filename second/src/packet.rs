//! Packets: header, segments and reassembly (document 01, "Packets", and document
//! 02, "Credits inside data packets" and "Reserved bits shown"; 003, 3.4 and 3.5).

/// Octets before the payload.
pub const HEADER_OCTETS: usize = 3;
/// Controller data is cut here; the length octet holds no more.
pub const MOST_PAYLOAD: usize = 255;
/// The longest packet.
pub const MOST_PACKET: usize = HEADER_OCTETS + MOST_PAYLOAD;
/// A data run past this is dropped whole.
pub const MOST_DATA_MESSAGE: usize = 1024;
/// A control run past this is dropped whole.
pub const MOST_CONTROL_MESSAGE: usize = 255;
/// Most credits that a data packet returns: CR has two bits.
pub const MOST_CARRIED: u8 = 3;

const PACKET_BOUNDARY_FLAG: u8 = 0x10;
/// CR, bits 1-0 of a data packet's octet 1.
const CREDITS: u8 = 0x03;
/// OID, bits 5-0 of a control packet's octet 1.
const OPCODE: u8 = 0x3F;

/// MT, bits 7-5 of octet 0. The other four values are RFU and have no case:
/// reading one is a drop.
#[derive(Clone, Copy, Debug, PartialEq, Eq)]
pub enum MessageType {
    Data = 0,
    Command = 1,
    Response = 2,
    Notification = 3,
}

impl MessageType {
    fn from_octet_0(octet: u8) -> Option<MessageType> {
        match octet >> 5 {
            0 => Some(MessageType::Data),
            1 => Some(MessageType::Command),
            2 => Some(MessageType::Response),
            3 => Some(MessageType::Notification),
            _ => None,
        }
    }
}

/// A packet as the reader hands it on; the payload is that part of the octets
/// read.
#[derive(Clone, Copy, Debug, PartialEq, Eq)]
pub struct Packet<'a> {
    pub message_type: MessageType,
    /// PBF: more segments of the same message follow.
    pub more: bool,
    /// The GID, or for data the Conn ID.
    pub id: u8,
    /// 0 for data.
    pub oid: u8,
    /// CR: credits that data going up returns on its connection; 0 for control.
    pub credits: u8,
    pub payload: &'a [u8],
}

impl Packet<'_> {
    /// Header and payload: what the packet fills of the octets it was read from.
    pub fn octets(&self) -> usize {
        HEADER_OCTETS + self.payload.len()
    }

    /// The last packet of a command is the one that `down` answers.
    pub fn ends_command(&self) -> bool {
        self.message_type == MessageType::Command && !self.more
    }
}

/// Reading answers a packet or a drop.
#[derive(Clone, Copy, Debug, PartialEq, Eq)]
pub enum Reading<'a> {
    Packet(Packet<'a>),
    Drop,
}

/// Octets short of the stated length, or an RFU MT, are a drop; octets past the
/// stated length and reserved bits are ignored. `reserved_at_1` tells these bits.
pub fn read(octets: &[u8]) -> Reading<'_> {
    let [first, second, length, rest @ ..] = octets else {
        return Reading::Drop;
    };
    let Some(message_type) = MessageType::from_octet_0(*first) else {
        return Reading::Drop;
    };
    let Some(payload) = rest.get(..usize::from(*length)) else {
        return Reading::Drop;
    };
    let (oid, credits) = match message_type {
        MessageType::Data => (0, second & CREDITS),
        _ => (second & OPCODE, 0),
    };
    Reading::Packet(Packet {
        message_type,
        more: first & PACKET_BOUNDARY_FLAG != 0,
        id: first & 0x0F,
        oid,
        credits,
        payload,
    })
}

/// Which way a packet goes.
#[derive(Clone, Copy, Debug, PartialEq, Eq)]
pub enum Way {
    Down,
    Up,
}

/// The bits of octet 1 that a sender is to leave at 0: of control those beside the OID,
/// of data those beside CR, and CR too where it goes down.
fn reserved_bits(message_type: MessageType, way: Way) -> u8 {
    match (message_type, way) {
        (MessageType::Data, Way::Down) => 0xFF,
        (MessageType::Data, Way::Up) => !CREDITS,
        _ => !OPCODE,
    }
}

/// The reserved bits of octet 1 that the sender left at 1, in their places; none of
/// octets that are a drop.
pub fn reserved_at_1(octets: &[u8], way: Way) -> u8 {
    match read(octets) {
        Reading::Packet(packet) => octets[1] & reserved_bits(packet.message_type, way),
        Reading::Drop => 0,
    }
}

/// The octets of a packet, reserved bits 0. `id`, `oid` and `credits` are inside
/// their four, six and two bits and the payload is at most 255 octets.
pub fn write(packet: &Packet) -> Vec<u8> {
    debug_assert!(packet.id <= 0x0F && packet.oid <= 0x3F && packet.credits <= MOST_CARRIED);
    let length = u8::try_from(packet.payload.len()).expect("a segment is at most 255 octets");
    let flag = if packet.more { PACKET_BOUNDARY_FLAG } else { 0 };
    let mut octets = Vec::with_capacity(packet.octets());
    octets.push((packet.message_type as u8) << 5 | flag | packet.id);
    octets.push(if packet.message_type == MessageType::Data { packet.credits } else { packet.oid });
    octets.push(length);
    octets.extend_from_slice(packet.payload);
    octets
}

/// A control message in one packet: controllers cut theirs no smaller.
pub fn write_control(message_type: MessageType, gid: u8, oid: u8, payload: &[u8]) -> Vec<u8> {
    write(&Packet { message_type, more: false, id: gid, oid, credits: 0, payload })
}

/// A data segment, with the credits that it returns: going down none.
pub fn write_data(conn: u8, credits: u8, segment: &Segment) -> Vec<u8> {
    write(&Packet {
        message_type: MessageType::Data,
        more: segment.more,
        id: conn,
        oid: 0,
        credits,
        payload: &segment.octets,
    })
}

/// Puts credits into a packet that goes up again: the two bits are replaced whatever
/// the packet is, the other octets and bits stay.
pub fn set_credits(octets: &mut [u8], credits: u8) {
    if let Some(second) = octets.get_mut(1) {
        *second = *second & !CREDITS | credits & CREDITS;
    }
}

/// One part of a message and whether more follow.
#[derive(Clone, Debug, PartialEq, Eq)]
pub struct Segment {
    pub octets: Vec<u8>,
    pub more: bool,
}

/// A message that an end is sending ("in hand"), with the octets of it already
/// gone. Whether one is in hand is the owner's `Option`, not its length: an
/// empty message in hand still has its bare header to go.
#[derive(Clone, Debug, PartialEq, Eq)]
pub struct InHand {
    pub octets: Vec<u8>,
    pub gone: usize,
}

impl InHand {
    pub fn new(octets: Vec<u8>) -> InHand {
        InHand { octets, gone: 0 }
    }

    /// For tests: with so many octets gone. No list of calls leaves a message in
    /// hand with all of its octets gone.
    pub fn forged(octets: Vec<u8>, gone: usize) -> InHand {
        assert!(gone <= octets.len(), "a place past the message isn't there");
        InHand { octets, gone }
    }

    /// The next segment: full, but for the last. A message that is an exact
    /// multiple of `size` ends with a full segment, not an empty one.
    pub fn cut(&mut self, size: usize) -> Segment {
        let end = self.octets.len().min(self.gone + size);
        let segment = Segment { octets: self.octets[self.gone..end].to_vec(), more: end < self.octets.len() };
        self.gone = end;
        segment
    }

    /// How many segments are still to go.
    pub fn segments_left(&self, size: usize) -> usize {
        segment_count(self.octets.len() - self.gone, size)
    }
}

/// How many segments a message makes; an empty one is one bare header.
pub fn segment_count(length: usize, size: usize) -> usize {
    length.div_ceil(size).max(1)
}

/// All packets of a command.
pub fn command_packets(gid: u8, oid: u8, payload: &[u8], size: usize) -> Vec<Vec<u8>> {
    let mut message = InHand::new(payload.to_vec());
    let mut packets = Vec::new();
    loop {
        let segment = message.cut(size);
        packets.push(write(&Packet {
            message_type: MessageType::Command,
            more: segment.more,
            id: gid,
            oid,
            credits: 0,
            payload: &segment.octets,
        }));
        if !segment.more {
            return packets;
        }
    }
}

/// What a segment did to its run.
#[derive(Clone, Debug, PartialEq, Eq)]
pub enum Joined {
    /// More segments are awaited.
    Partly,
    /// The message is whole.
    Whole(Vec<u8>),
    /// The run is past its limit: this segment is flagged as dropped.
    Dropped,
}

/// The segments of one message received so far.
#[derive(Clone, Debug, PartialEq, Eq)]
pub struct Run {
    pub octets: Vec<u8>,
    limit: usize,
    pub past_limit: bool,
}

impl Run {
    pub fn of_data() -> Run {
        Run::with_limit(MOST_DATA_MESSAGE)
    }

    fn with_limit(limit: usize) -> Run {
        Run { octets: Vec::new(), limit, past_limit: false }
    }

    /// A run past its limit is dropped whole, flagged from the segment that
    /// passed it up to its last; the next segment then begins a new run.
    pub fn join(&mut self, payload: &[u8], more: bool) -> Joined {
        self.octets.extend_from_slice(payload);
        self.past_limit |= self.octets.len() > self.limit;
        if self.past_limit {
            self.octets.clear();
            self.past_limit = more;
            return Joined::Dropped;
        }
        if more {
            return Joined::Partly;
        }
        Joined::Whole(std::mem::take(&mut self.octets))
    }
}

/// The control run of an end. One at a time: another MT, GID or OID starts a new
/// one, and what the old one held is gone.
#[derive(Clone, Debug, PartialEq, Eq)]
pub struct ControlRun {
    pub of: Option<(MessageType, u8, u8)>,
    pub run: Run,
}

impl ControlRun {
    pub fn new() -> ControlRun {
        ControlRun { of: None, run: Run::with_limit(MOST_CONTROL_MESSAGE) }
    }

    pub fn join(&mut self, packet: &Packet) -> Joined {
        let message = Some((packet.message_type, packet.id, packet.oid));
        if self.of != message {
            *self = ControlRun::new();
        }
        self.of = if packet.more { message } else { None };
        self.run.join(packet.payload, packet.more)
    }
}

impl Default for ControlRun {
    fn default() -> Self {
        ControlRun::new()
    }
}

#[cfg(test)]
mod tests {
    use super::*;

    fn packet(octets: &[u8]) -> Packet<'_> {
        match read(octets) {
            Reading::Packet(packet) => packet,
            Reading::Drop => panic!("dropped: {octets:02X?}"),
        }
    }

    #[test]
    fn every_written_packet_reads_back() {
        let payload: Vec<u8> = (0..=254).collect();
        for length in [0, 1, 31, 32, 254, 255] {
            for more in [false, true] {
                for (message_type, oid, credits) in [
                    (MessageType::Data, 0, 0),
                    (MessageType::Data, 0, 1),
                    (MessageType::Data, 0, 2),
                    (MessageType::Data, 0, 3),
                    (MessageType::Command, 0x3F, 0),
                    (MessageType::Response, 1, 0),
                    (MessageType::Notification, 0x20, 0),
                ] {
                    for id in 0..16 {
                        let payload = &payload[..length];
                        let written = Packet { message_type, more, id, oid, credits, payload };
                        assert_eq!(packet(&write(&written)), written);
                    }
                }
            }
        }
    }

    #[test]
    fn reserved_message_types_are_a_drop() {
        for first in 0x80..=0xFF {
            assert_eq!(read(&[first, 0, 0]), Reading::Drop);
        }
        for first in 0x00..=0x7F {
            assert_ne!(read(&[first, 0, 0]), Reading::Drop);
        }
    }

    #[test]
    fn octets_short_of_the_length_are_a_drop_and_octets_past_it_ignored() {
        assert_eq!(read(&[]), Reading::Drop);
        assert_eq!(read(&[0x02]), Reading::Drop);
        assert_eq!(read(&[0x02, 0x00]), Reading::Drop);
        assert_eq!(read(&[0x02, 0x00, 0x02, 0xAA]), Reading::Drop);
        assert_eq!(packet(&[0x02, 0x00, 0x02, 0xAA, 0xBB]).payload, [0xAA, 0xBB]);
        assert_eq!(packet(&[0x02, 0x00, 0x02, 0xAA, 0xBB, 0xCC]).payload, [0xAA, 0xBB]);
    }

    #[test]
    fn reserved_bits_of_octet_1_are_ignored() {
        assert_eq!(packet(&[0x20, 0xC4, 0x00]).oid, 0x04);
        assert_eq!(packet(&[0x02, 0xFF, 0x00]).oid, 0x00);
    }

    #[test]
    fn written_packets_have_reserved_bits_0() {
        for (message_type, oid) in
            [(MessageType::Data, 0), (MessageType::Command, 0x3F), (MessageType::Notification, 0x3F)]
        {
            let packet = Packet { message_type, more: false, id: 15, oid, credits: 0, payload: &[] };
            assert_eq!(reserved_at_1(&write(&packet), Way::Down), 0);
            assert_eq!(reserved_at_1(&write(&packet), Way::Up), 0);
        }
        let carrier = Packet { credits: 3, ..packet(&[0x02, 0x00, 0x00]) };
        assert_eq!(reserved_at_1(&write(&carrier), Way::Up), 0);
        assert_eq!(reserved_at_1(&write(&carrier), Way::Down), 3);
    }

    #[test]
    fn credits_are_the_two_low_bits_of_octet_1_of_data_alone() {
        for second in 0..=255u8 {
            assert_eq!(packet(&[0x02, second, 0x00]).credits, second % 4);
            for first in [0x20, 0x40, 0x60] {
                assert_eq!(packet(&[first, second, 0x00]).credits, 0);
            }
        }
    }

    #[test]
    fn credits_are_replaced_and_the_rest_stays() {
        for first in 0..=255u8 {
            for second in 0..=255u8 {
                for credits in 0..=MOST_CARRIED {
                    let mut octets = [first, second, 0x02, 0xFF, 0xFF];
                    set_credits(&mut octets, credits);
                    assert_eq!(octets, [first, second / 4 * 4 + credits, 0x02, 0xFF, 0xFF]);
                }
            }
        }
        for short in [vec![], vec![0x02]] {
            let mut octets = short.clone();
            set_credits(&mut octets, 3);
            assert_eq!(octets, short);
        }
    }

    #[test]
    fn the_payload_is_that_part_of_the_packet_itself() {
        let octets = [0x02, 0x00, 0x02, 0xAA, 0xBB, 0xCC];
        assert!(std::ptr::eq(packet(&octets).payload, &octets[3..5]));
    }

    #[test]
    fn segments_are_full_but_the_last_and_join_to_the_message() {
        for size in [1, 2, 3, 4, 7, 32, 254, 255] {
            for length in (0..=40).chain([255, 256, 508, 510, 1020, 1024]) {
                let message: Vec<u8> = (0..length).map(|octet| octet as u8).collect();
                let mut in_hand = InHand::new(message.clone());
                let mut run = Run::of_data();
                let mut count = 0;
                loop {
                    let segment = in_hand.cut(size);
                    count += 1;
                    if segment.more {
                        assert_eq!(segment.octets.len(), size);
                        assert_eq!(run.join(&segment.octets, true), Joined::Partly);
                        continue;
                    }
                    assert!(segment.octets.len() <= size);
                    assert_eq!(segment.octets.is_empty(), length == 0);
                    assert_eq!(run.join(&segment.octets, false), Joined::Whole(message));
                    break;
                }
                assert_eq!(count, segment_count(length, size));
            }
        }
    }

    #[test]
    fn a_data_run_is_dropped_from_the_segment_that_passes_its_limit() {
        let mut run = Run::of_data();
        for _ in 0..4 {
            assert_eq!(run.join(&[7; 255], true), Joined::Partly);
        }
        assert_eq!(run.join(&[7; 4], true), Joined::Partly);
        assert_eq!(run.join(&[], true), Joined::Partly);
        assert_eq!(run.join(&[7], true), Joined::Dropped);
        assert_eq!(run.join(&[], true), Joined::Dropped);
        assert_eq!(run.join(&[7], false), Joined::Dropped);
        assert_eq!(run.join(&[8], false), Joined::Whole(vec![8]));
    }

    #[test]
    fn a_data_run_of_exactly_its_limit_is_whole() {
        let mut run = Run::of_data();
        for _ in 0..4 {
            run.join(&[7; 255], true);
        }
        assert_eq!(run.join(&[7; 4], false), Joined::Whole(vec![7; 1024]));
    }

    #[test]
    fn another_type_gid_or_oid_starts_a_new_control_run() {
        for other in [[0x30, 0x04, 0x00], [0x51, 0x04, 0x00], [0x50, 0x05, 0x00]] {
            let mut run = ControlRun::new();
            assert_eq!(run.join(&packet(&[0x50, 0x04, 0x01, 0xAA])), Joined::Partly);
            assert_eq!(run.join(&packet(&other)), Joined::Partly);
            let last = [0x40, 0x04, 0x01, 0xBB];
            assert_eq!(run.join(&packet(&last)), Joined::Whole(vec![0xBB]));
        }
    }

    #[test]
    fn a_control_run_past_255_is_dropped_and_a_new_message_is_not() {
        let mut run = ControlRun::new();
        let full = [&[0x30, 0x04, 0xFF][..], &[1; 255]].concat();
        assert_eq!(run.join(&packet(&full)), Joined::Partly);
        assert_eq!(run.join(&packet(&[0x30, 0x04, 0x01, 0xAA])), Joined::Dropped);
        assert_eq!(run.join(&packet(&[0x20, 0x05, 0x01, 0xAA])), Joined::Whole(vec![0xAA]));
        assert_eq!(run.join(&packet(&full)), Joined::Partly);
        assert_eq!(run.join(&packet(&[0x20, 0x04, 0x00])), Joined::Whole(vec![1; 255]));
    }
}
