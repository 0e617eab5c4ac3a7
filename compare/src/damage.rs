//! Damaged benches: octets of the record and of slots changed, areas of any octets.
//! Every call is made on each of them, and on those whose record passes for sound a
//! list goes on.

use exam_bench::call::Call;
use exam_bench::connection::CONN_IDS;
use exam_bench::player::{octets_to_read, Random};
use exam_bench::profile::LONG_PROFILE;

use crate::lists::Lists;
use crate::made::{INFO_LENGTH, PF_BIT_RATE};
use crate::record::{
    AREA, DOWN_AT, DOWN_RING, INFO_ROOM, RECORD, RECORD_AT, RECORD_ROOM, SAID, SLOT, STORES_AT, STORE_SLOTS,
    UP_AT, UP_RING, VALUES, WIRE_SLOTS,
};

/// Calls of a list before its bench is damaged, damaged copies of that bench, most
/// changes to one copy, and most calls of the list that goes on.
const LIST_CALLS: usize = 120;
const COPIES: usize = 30;
const CHANGES: usize = 3;
const GOING_ON: usize = 20;

/// Slots of both wires and all stores, which lie at the front of the area.
const SLOTS: usize = 2 * WIRE_SLOTS + 5 * STORE_SLOTS;

/// Packets near those that are written here, data with credits and packets with reserved
/// bits at 1 among them.
const PACKETS: [&[u8]; 51] = [
    &[0x20, 0x00, 1, 0],
    &[0x20, 0x00, 1, 1],
    &[0x20, 0x01, 2, 0, 0],
    &[0x20, 0x02, 4, 1, 0x08, 1, 1],
    &[0x20, 0x02, 9, 2, 0x18, 1, 2, 0x20, 3, 7, 8, 9],
    &[0x20, 0x02, 7, 2, 0x12, 1, 9, 0x68, 1, 7],
    &[0x20, 0x02, 5, 2, 0x20, 0, 0x2A, 0],
    &[0x30, 0x02, 2, 1, 0x21],
    &[0x20, 0x03, 3, 2, 0x08, 0x20],
    &[0x20, 0x03, 16, 15, 8, 9, 0x10, 0x11, 0x13, 0x14, 0x18, 0x19, 0x1A, 0x20, 0x21, 0x28, 0x2A, 0x2F, 0x68],
    &[0x20, 0x03, 3, 2, 0x08, 0x12],
    &[0x20, 0x04, 2, 1, 0],
    &[0x30, 0x04, 1, 1],
    &[0x20, 0x05, 1, 2],
    &[0x21, 0x03, 3, 1, 0, 1],
    &[0x21, 0x04, 3, 1, 4, 1],
    &[0x21, 0x06, 1, 0],
    &[0x40, 0x00, 1, 0],
    &[0x40, 0x01, 16, 0, 0, 0, 0, 0, 4, 0, 0, 64, 0, 0, 0, 0, 1, 1, 0],
    &[0x40, 0x02, 2, 0, 0],
    &[0x40, 0x02, 3, 9, 1, 0x08],
    &[0x40, 0x03, 7, 0, 2, 0x08, 1, 1, 0x20, 0],
    &[0x40, 0x03, 4, 9, 1, 0x12, 0],
    &[0x40, 0x04, 4, 0, 4, 2, 2],
    &[0x40, 0x04, 4, 0, 1, 255, 5],
    &[0x50, 0x04, 2, 0, 4],
    &[0x40, 0x05, 1, 0],
    &[0x40, 0x05, 1, 1],
    &[0x60, 0x06, 3, 1, 2, 2],
    &[0x60, 0x06, 7, 3, 0, 1, 3, 8, 5, 1],
    &[0x70, 0x06, 2, 1, 2],
    &[0x61, 0x05, 11, 1, 1, 4, 0, 4, 1, 0, 0, 0, 0, 0],
    &[0x61, 0x06, 2, 0, 0],
    &[0x00, 0x00, 1, 0xAA],
    &[0x12, 0x00, 2, 0xAA, 0xBB],
    &[0x03, 0x00, 0],
    &[0x00, 0x01, 1, 0xAA],
    &[0x10, 0xFF, 1, 0xAA],
    &[0x02, 0x03, 0],
    &[0x12, 0x02, 2, 0xAA, 0xBB],
    &[0x03, 0xFD, 1, 0xAA],
    &[0x04, 0x01, 1, 0xAA],
    &[0x80, 0x00, 0],
    &[0x20, 0xC0, 1, 0],
    &[0x20, 0x44, 2, 1, 0],
    &[0x31, 0x83, 1, 1],
    &[0x40, 0x45, 1, 0],
    &[0x60, 0xC6, 3, 1, 2, 2],
    &[0x61, 0x85, 11, 1, 1, 4, 0, 4, 1, 0, 0, 0, 0, 0],
    &[0x12, 0x84, 1, 0xAA],
    &[0x80, 0xFF, 0],
];

pub struct Damage {
    /// Where the benches come from.
    sound: Lists,
    /// Where the calls on damaged ones are made.
    pub after: Lists,
    random: Random,
    /// The record of an earlier bench.
    earlier: Vec<u8>,
    /// Damaged benches, and those of them whose record passes for sound.
    pub benches: u64,
    pub passed: u64,
}

impl Damage {
    pub fn new(seed: u64) -> Damage {
        Damage {
            sound: Lists::new(seed),
            after: Lists::new(seed.wrapping_add(1)),
            random: Random::new(seed ^ 0xDA4A_6E00),
            earlier: vec![0; RECORD_ROOM],
            benches: 0,
            passed: 0,
        }
    }

    /// The calls made on damaged benches.
    pub fn calls(&self) -> u64 {
        let both = &self.after.both;
        both.tally.calls + both.damaged + both.short
    }

    /// A bench that a list leaves, and damaged copies of it.
    pub fn round(&mut self) -> Result<(), String> {
        let bench = self.bench()?;
        for _ in 0..COPIES {
            let mut octets = bench.clone();
            for _ in 0..1 + self.random.below(CHANGES) {
                self.change(&mut octets);
            }
            self.try_bench(&octets, true)?;
            self.go_on(&octets)?;
        }
        self.earlier.copy_from_slice(&bench[RECORD_AT..]);
        Ok(())
    }

    /// One octet of the record at each of its values, each on a bench of its own list.
    pub fn octet(&mut self, place: usize) -> Result<(), String> {
        let bench = self.bench()?;
        for value in 0..=255 {
            let mut octets = bench.clone();
            octets[RECORD_AT + place] = value;
            self.try_bench(&octets, false)?;
        }
        Ok(())
    }

    fn bench(&mut self) -> Result<Vec<u8>, String> {
        self.sound.play(LIST_CALLS)?;
        Ok(self.sound.both.lent.octets()[..AREA].to_vec())
    }

    fn change(&mut self, octets: &mut [u8]) {
        let random = &mut self.random;
        let record = RECORD_AT..RECORD_AT + SAID;
        match random.below(18) {
            0 => octets[RECORD_AT + random.below(SAID)] = random.octet(),
            1 => several(random, &mut octets[record], Random::octet),
            2..=4 => octets[RECORD_AT + random.below(SAID)] = small(random),
            5 => several(random, &mut octets[record], small),
            6 => fill(random, &mut octets[RECORD_AT..]),
            7..=8 => forge(random, octets),
            12..=14 => reshape(random, &mut octets[record]),
            15 => fill_grant(random, octets),
            16 => set_reserved(random, octets),
            17 => reconfigure(random, &mut octets[record]),
            9 => {
                let place = random.below(SLOTS);
                fill(random, slot(place, octets));
            }
            10 => several(random, octets, Random::octet),
            _ => match random.below(4) {
                0 => fill(random, octets),
                1 => fill(random, &mut octets[..RECORD_AT]),
                _ => octets[RECORD_AT..].copy_from_slice(&self.earlier),
            },
        }
    }

    /// What is going on on this bench, then every call on it, and if it passes for sound
    /// each connection's own where that is asked.
    fn try_bench(&mut self, octets: &[u8], each_conn: bool) -> Result<(), String> {
        self.after.both.put(octets);
        self.after.both.state()?;
        self.benches += 1;
        let passed = self.after.both.second.is_some();
        self.passed += u64::from(passed);
        let calls = calls(&mut self.random, passed && each_conn);
        for call in &calls {
            self.after.both.put(octets);
            self.after.lines.clear();
            self.after.step(call)?;
            // the call left credits past a grant: none but fresh is taken next
            if passed && self.after.both.second.is_none() {
                self.after.step(&calls[self.random.below(calls.len())])?;
            }
        }
        Ok(())
    }

    fn go_on(&mut self, octets: &[u8]) -> Result<(), String> {
        self.after.both.put(octets);
        self.after.lines.clear();
        for _ in 0..self.random.below(GOING_ON) {
            self.after.next_call()?;
        }
        Ok(())
    }
}

/// Some octets changed.
fn several(random: &mut Random, octets: &mut [u8], value: fn(&mut Random) -> u8) {
    for _ in 0..2 + random.below(7) {
        let place = random.below(octets.len());
        octets[place] = value(random);
    }
}

/// Octets of the record become others that they may well be; mostly so that all of them
/// together may be.
fn reshape(random: &mut Random, record: &mut [u8]) {
    for _ in 0..1 + random.below(30) {
        let place = random.below(SAID);
        record[place] = random.below(usize::from(most(place)) + 1) as u8;
    }
    if random.chance(90) {
        mend(record);
    }
}

/// All values of parameters become others that they may well be, one of them at times any.
fn reconfigure(random: &mut Random, record: &mut [u8]) {
    for (place, octet) in record.iter_mut().enumerate().skip(RECORD) {
        *octet = random.below(usize::from(most(place)) + 1) as u8;
    }
    mend(record);
    if random.chance(50) {
        record[RECORD + random.below(VALUES)] = random.octet();
    }
}

/// What must hold between octets: least sizes, credits up to the grant, positions up to
/// the length, nothing past the length of PI_B_H_INFO.
fn mend(record: &mut [u8]) {
    for size in [0, 11] {
        record[size] = record[size].max(32);
    }
    for term in &mut record[1..LONG_PROFILE] {
        *term = (*term).max(1);
    }
    if record[23] == 1 {
        record[23] = 2;
    }
    mend_hand(&mut record[51..56]);
    for conn in record[56..156].chunks_exact_mut(20) {
        conn[1] = conn[1].max(1);
        conn[3] = conn[3].min(conn[2]);
        mend_hand(&mut conn[4..9]);
        mend_length(&mut conn[9..11]);
        conn[14] = conn[14].min(conn[13]);
        mend_length(&mut conn[17..19]);
    }
    record[PF_BIT_RATE] = record[PF_BIT_RATE].max(1);
    let length = usize::from(record[INFO_LENGTH]).min(INFO_ROOM);
    record[INFO_LENGTH + 1..][length..INFO_ROOM].fill(0);
}

fn mend_hand(hand: &mut [u8]) {
    mend_length(&mut hand[1..3]);
    let (length, position) = ([hand[1], hand[2]], [hand[3], hand[4]]);
    hand[3..].copy_from_slice(&position.min(length));
}

/// At most 1,024.
fn mend_length(length: &mut [u8]) {
    let most = [length[0], length[1]].min([4, 0]);
    length.copy_from_slice(&most);
}

/// The most that an octet of the record mostly is: both ends, the wires and the values of
/// parameters, in the order of the record. Lengths are kept under 256 or at 1,024.
fn most(place: usize) -> u8 {
    const PROFILE: [u8; LONG_PROFILE] = [255, 255, 8, 255, 8, 255, 8, 255, 8, 255, 8];
    const HOST: [u8; 5] = [255, 1, 1, 6, 6];
    const RUN: [u8; 6] = [3, 1, 6, 0, 255, 1];
    const CONTROLLER: [u8; 23] = [2, 5, 6, 1, 9, 5, 9, 5, 9, 5, 9, 5, 9, 5, 9, 5, 9, 5, 9, 5, 9, 5, 8];
    const HAND: [u8; 5] = [1, 4, 0, 4, 0];
    const CONN: [u8; 20] = [1, 255, 8, 8, 1, 4, 0, 4, 0, 4, 0, 1, 1, 8, 8, 7, 8, 4, 0, 1];
    const WIRES: [u8; 4] = [15, 16, 15, 16];
    const BEFORE_INFO: [u8; 10] = [1, 255, 255, 1, 255, 255, 2, 1, 255, INFO_ROOM as u8];
    const AFTER_INFO: [u8; 5] = [3, 1, 255, 255, 6];
    match place {
        0..11 => PROFILE[place],
        11..16 => HOST[place - 11],
        16..22 => RUN[place - 16],
        22..45 => CONTROLLER[place - 22],
        45..51 => RUN[place - 45],
        51..56 => HAND[place - 51],
        56..156 => CONN[(place - 56) % 20],
        156..160 => WIRES[place - 156],
        160..170 => BEFORE_INFO[place - 160],
        170..185 => 255,
        _ => AFTER_INFO[place - 185],
    }
}

/// A connection holds and owes its whole grant, or nearly, and more is to come: credits first
/// on the up wire, a packet in the store. Some grants are so near 255 that a sum passes it.
fn fill_grant(random: &mut Random, octets: &mut [u8]) {
    let place = random.below(CONN_IDS.len());
    let grant = random.pick(&[0, 1, 2, 8, 200, 248, 251, 253, 254, 254]);
    let count = u8::saturating_sub(grant, random.pick(&[0, 0, 0, 1, 3]));
    let conn = &mut octets[RECORD_AT + 56 + 20 * place..][..20];
    conn[1] = conn[1].max(1);
    for side in [[0, 2, 3], [12, 13, 14]] {
        let [open, granted, counted] = side;
        (conn[open], conn[granted], conn[counted]) = (1, grant, count);
    }
    let stored = usize::from(conn[15]) % STORE_SLOTS;
    conn[16] = conn[16].max(1);
    let up = usize::from(octets[RECORD_AT + 158]) % WIRE_SLOTS;
    octets[RECORD_AT + 159] = octets[RECORD_AT + 159].max(1);
    let packets = [
        (STORES_AT + (place * STORE_SLOTS + stored) * SLOT, vec![CONN_IDS[place], 0, 1, 0xAA]),
        (UP_AT + up * SLOT, credits(random, place)),
    ];
    for (at, packet) in packets {
        octets[at..at + packet.len()].copy_from_slice(&packet);
    }
}

/// Data of a connection with credits in it, or a notice of credits to it and to others.
fn credits(random: &mut Random, place: usize) -> Vec<u8> {
    if random.chance(50) {
        let first = CONN_IDS[place] | random.pick(&[0x00, 0x10]);
        return vec![first, random.pick(&[1, 2, 3, 0xFF]), 1, 0xAA];
    }
    let mut entries = Vec::new();
    for (other, conn) in CONN_IDS.into_iter().enumerate() {
        if other == place || random.chance(30) {
            entries.extend([conn, 1 + random.below(8) as u8]);
        }
    }
    let octets = entries.len() as u8;
    [vec![0x60, 0x06, octets + 1, octets / 2], entries].concat()
}

/// Bits of octet 1 are set in the packet that is first on each wire, or would be: mostly those
/// that are reserved in every packet.
fn set_reserved(random: &mut Random, octets: &mut [u8]) {
    for (slots, ring) in [(DOWN_AT, DOWN_RING), (UP_AT, UP_RING)] {
        let first = usize::from(octets[ring]) % WIRE_SLOTS;
        octets[ring + 1] = octets[ring + 1].max(1);
        let any = random.octet();
        octets[slots + first * SLOT + 1] |= random.pick(&[0x40, 0x80, 0xC0, any]);
    }
}

/// All octets changed.
pub fn fill(random: &mut Random, octets: &mut [u8]) {
    for part in octets.chunks_mut(8) {
        let number = random.number().to_le_bytes();
        part.copy_from_slice(&number[..part.len()]);
    }
}

/// A number that a count, place or state may well be.
fn small(random: &mut Random) -> u8 {
    random.pick(&[0, 1, 1, 2, 3, 4, 5, 6, 7, 8, 15, 16, 32, 255])
}

fn slot(place: usize, octets: &mut [u8]) -> &mut [u8] {
    &mut octets[place * SLOT..(place + 1) * SLOT]
}

/// A packet near those that are written here in some slot, or in all of them.
fn forge(random: &mut Random, octets: &mut [u8]) {
    let places = if random.chance(20) { 0..SLOTS } else { 0..1 };
    let first = random.below(SLOTS);
    for place in places {
        let packet = random.pick(&PACKETS);
        let slot = slot((first + place) % SLOTS, octets);
        slot[..packet.len()].copy_from_slice(packet);
        if random.chance(30) {
            slot[random.below(packet.len())] = random.octet();
        }
    }
}

/// All calls, those of connections for one of them or for each.
fn calls(random: &mut Random, each_conn: bool) -> Vec<Call> {
    let any = random.octet();
    let conns: Vec<u8> =
        if each_conn { CONN_IDS.into_iter().chain([any]).collect() } else { vec![random.pick(&CONN_IDS)] };
    let mut calls = vec![Call::Fresh(profile(random)), Call::Power, Call::Down, Call::Up, Call::Credit];
    calls.extend([Call::Reply, Call::Run]);
    calls.extend([command(random), Call::Air(event(random)), Call::Air(event(random))]);
    calls.push(Call::Read(octets_to_read(random)));
    for conn in conns {
        let octets = random.pick(&[0, 1, 9, 255, 256, 1024, 1025]);
        calls.push(Call::Send { conn, message: random.octets(octets) });
        calls.extend([Call::Push(conn), Call::Consume(conn), Call::Report(conn)]);
    }
    calls
}

/// A profile of either form, at times with one octet of any value, or with another number
/// of octets.
fn profile(random: &mut Random) -> Vec<u8> {
    let form: &[u8] = random.pick(&[&[32, 4, 2, 4, 1], &[32, 1, 1, 255, 8, 4, 2, 100, 255, 4, 1]]);
    let mut profile = form.to_vec();
    if random.chance(50) {
        let place = random.below(profile.len());
        profile[place] = random.octet();
    } else if random.chance(20) {
        profile.resize(random.pick(&[0, 4, 6, 10, 12, 255]), 1);
    }
    profile
}

fn command(random: &mut Random) -> Call {
    if random.chance(20) {
        return config_command(random);
    }
    let known = [(0, 0), (0, 1), (0, 4), (0, 5), (0, 5), (1, 3), (1, 4), (1, 6)];
    let (gid, oid) = if random.chance(80) {
        random.pick(&known)
    } else {
        (random.below(20) as u8, random.below(70) as u8)
    };
    let payload: &[u8] =
        random.pick(&[&[], &[0], &[1], &[1, 0], &[2], &[1, 0, 1], &[3, 4, 1], &[0; 33], &[7; 255]]);
    let mut payload = payload.to_vec();
    if random.chance(20) {
        let octets = random.below(260);
        payload = random.octets(octets);
    }
    Call::Command { gid, oid, payload }
}

/// A set or a get, the lists of either, one of them longer than a response can be, or cut short.
fn config_command(random: &mut Random) -> Call {
    let many = [vec![85], vec![0x09; 85]].concat();
    let payload: &[u8] = random.pick(&[
        &[0],
        &[1, 0x08, 1, 1],
        &[3, 0x20, 2, 7, 7, 0x68, 1, 0x20, 0x18, 0],
        &[2, 0x12, 0, 0x08],
        &[15, 8, 9, 0x10, 0x11, 0x13, 0x14, 0x18, 0x19, 0x1A, 0x20, 0x21, 0x28, 0x2A, 0x2F, 0x68],
        &many,
    ]);
    let mut payload = payload.to_vec();
    if random.chance(20) {
        payload.truncate(random.below(payload.len()));
    }
    Call::Command { gid: 0, oid: random.pick(&[2, 3]), payload }
}

fn event(random: &mut Random) -> Vec<u8> {
    let some = random.octets(3);
    let event: &[u8] = random.pick(&[
        &[1, 1, 4, 0, 2],
        &[1, 9, 4, 1, 0],
        &[1, 254, 4, 6, 2, 7, 7],
        &[2, 1, 4, 0],
        &[2, 2, 0, 3, 9],
        &[3, 1, 4, 0x80],
        &[3, 5, 5, 0x83],
        &[4],
        &[5],
        &[6],
        &[7],
        &[8],
        &[8, 1, 2, 3],
    ]);
    let mut event = event.to_vec();
    if random.chance(10) {
        event.extend(some);
    }
    event
}
