//! What report reads of the wires. Payload octets that it does not look into are changed, on
//! benches of random lists and on wires of forged packets: every report stays what it was, and
//! the second implementation gives the same.

use std::ops::Range;

use exam_bench::call::Call;
use exam_bench::player::Random;

use crate::damage::fill;
use crate::forged::{self, Kind};
use crate::lent::{Lent, Room, Seen};
use crate::lists::Lists;
use crate::record::{self, AREA, DOWN_AT, DOWN_RING, RECORD_AT, SLOT, UP_AT, UP_RING, WIRE_SLOTS};
use crate::word;

/// Most calls of a list, benches that are taken from it, and calls from one to the next.
const LIST_CALLS: usize = 120;
const BENCHES: usize = 8;
const GOING_ON: usize = 10;

const KINDS: usize = Kind::ALL.len();

/// The slots and the ring of each wire.
const WIRES: [(usize, usize); 2] = [(DOWN_AT, DOWN_RING), (UP_AT, UP_RING)];
const UP: usize = 1;

/// The numbers of the five connections in the record.
const CONNS: Range<usize> = RECORD_AT + 56..DOWN_RING;

/// Places of a report's numbers.
const GOING_DOWN: usize = 1;
const CREDITS_UP: usize = 4;

/// Where the packets on the wires come from.
#[derive(Clone, Copy)]
enum Source {
    Lists = 0,
    Forged = 1,
}

/// What changed payloads met.
#[derive(Clone, Copy, Debug, Default)]
struct Scrambled {
    benches: u64,
    /// Packets with other octets, down and up.
    packets: [u64; 2],
    /// Reports beside them with packets going down, and with credits going up.
    counting: [u64; 2],
}

#[derive(Clone, Debug, Default)]
pub struct Met {
    /// By source.
    scrambled: [Scrambled; 2],
    /// Forged packets by kind, down and up, and reports with credits going up beside each.
    packets: [[u64; KINDS]; 2],
    beside: [u64; KINDS],
    looks: u64,
}

impl Met {
    /// Benches of lists, each of which was also given forged wires.
    pub fn benches(&self) -> u64 {
        self.scrambled[Source::Lists as usize].benches
    }

    fn counts(&self) -> Vec<(String, u64)> {
        let mut counts = Vec::new();
        for (name, met) in ["lists", "forged"].iter().zip(self.scrambled) {
            counts.push((format!("{name}-benches"), met.benches));
            counts.push((format!("{name}-down"), met.packets[0]));
            counts.push((format!("{name}-up"), met.packets[UP]));
            counts.push((format!("{name}-counting-down"), met.counting[0]));
            counts.push((format!("{name}-counting-up"), met.counting[UP]));
        }
        for (name, met) in [("down", self.packets[0]), ("up", self.packets[UP]), ("beside", self.beside)] {
            counts.extend(Kind::NAMES.iter().zip(met).map(|(kind, met)| (format!("{name}-{kind}"), met)));
        }
        counts
    }

    /// Fields `key=value` for one line; gaps are what was never met.
    pub fn fields(&self) -> String {
        let counts = self.counts();
        let never: Vec<&str> =
            counts.iter().filter(|(_, met)| *met == 0).map(|(name, _)| name.as_str()).collect();
        let gaps = if never.is_empty() { "none".to_string() } else { never.join(",") };
        let fields: String = counts.iter().map(|(name, met)| format!("{name}={met} ")).collect();
        format!("looks={} {fields}gaps={gaps}", self.looks)
    }
}

pub struct Reports {
    /// Where the benches come from.
    pub lists: Lists,
    /// Where reports are asked.
    lent: Lent,
    random: Random,
    pub met: Met,
}

impl Reports {
    pub fn new(seed: u64) -> Reports {
        Reports {
            lists: Lists::new(seed),
            lent: Lent::default(),
            random: Random::new(seed ^ 0x4EAD_E400),
            met: Met::default(),
        }
    }

    /// Benches that a list comes to, each as it is and with forged wires.
    pub fn round(&mut self) -> Result<(), String> {
        self.lists.play(LIST_CALLS)?;
        for _ in 0..BENCHES {
            for _ in 0..self.random.below(GOING_ON) {
                self.lists.next_call()?;
            }
            let mut octets = self.lists.both.lent.octets()[..AREA].to_vec();
            self.scramble(&octets, Source::Lists)?;
            self.forge(&mut octets)?;
        }
        Ok(())
    }

    /// The packets on the wires of the bench that was asked last, in hex, a line each.
    pub fn wires(&self) -> Vec<String> {
        let bench = record::load(self.lent.octets());
        let packets = bench.iter().flat_map(|bench| {
            let down = bench.down_wire.iter().map(|packet| ("down", packet));
            down.chain(bench.up_wire.iter().map(|packet| ("up", packet)))
        });
        packets.map(|(wire, packet)| format!("{wire}={packet:02X?}")).collect()
    }

    /// Reports of a bench, and again with other payloads; how many have credits going up.
    fn scramble(&mut self, octets: &[u8], source: Source) -> Result<u64, String> {
        let before = self.reports(octets)?;
        let mut other = octets.to_vec();
        let packets = scramble_wires(&mut self.random, &mut other);
        let after = self.reports(&other)?;
        if let Some(conn) = (0..before.len()).find(|conn| before[*conn] != after[*conn]) {
            let (was, is) = (&before[conn], &after[conn]);
            return Err(format!("report of {conn}: {was:02X?}, with other payloads {is:02X?}"));
        }
        let counting = [GOING_DOWN, CREDITS_UP].map(|place| above_0(&before, place));
        let met = &mut self.met.scrambled[source as usize];
        met.benches += 1;
        for wire in 0..WIRES.len() {
            met.packets[wire] += packets[wire];
            met.counting[wire] += if packets[wire] > 0 { counting[wire] } else { 0 };
        }
        Ok(counting[UP])
    }

    /// The same with forged packets on both wires.
    fn forge(&mut self, octets: &mut [u8]) -> Result<(), String> {
        octets[CONNS].chunks_exact_mut(20).for_each(|numbers| open(&mut self.random, numbers));
        let kinds = WIRES.map(|wire| forge_wire(&mut self.random, octets, wire));
        let credits_up = self.scramble(octets, Source::Forged)?;
        for kind in 0..KINDS {
            (0..WIRES.len()).for_each(|wire| self.met.packets[wire][kind] += kinds[wire][kind]);
            self.met.beside[kind] += if kinds[UP][kind] > 0 { credits_up } else { 0 };
        }
        Ok(())
    }

    /// What report says of every Conn ID, on both benches; the area stays as it is.
    fn reports(&mut self, octets: &[u8]) -> Result<Vec<Seen>, String> {
        self.lent.put(octets);
        let second = record::load(octets).ok_or("the record passes for damaged")?;
        let mut reports = Vec::new();
        for conn in 0..=255 {
            let seen = self.lent.look(&Call::Report(conn), Room::EXACT)?;
            let outcome = second.report(conn);
            if seen.word != word::of(&outcome) || seen.message != outcome.message {
                return Err(format!("report of {conn}: {seen:02X?} for {outcome:02X?}"));
            }
            reports.push(seen);
        }
        self.met.looks += reports.len() as u64;
        self.lent.unchanged()?;
        Ok(reports)
    }
}

/// Reports with a number above 0 at this place.
fn above_0(reports: &[Seen], place: usize) -> u64 {
    let numbers = reports.iter().filter_map(|seen| seen.message.as_ref());
    numbers.filter(|numbers| numbers[place] > 0).count() as u64
}

/// Where the slots of a wire that hold packets begin, oldest first.
fn filled(octets: &[u8], (slots, ring): (usize, usize)) -> Vec<usize> {
    let (head, count) = (usize::from(octets[ring]), usize::from(octets[ring + 1]));
    (0..count).map(|place| slots + (head + place) % WIRE_SLOTS * SLOT).collect()
}

/// Other octets in all payloads of the down wire, and in those of the up wire that report does
/// not look into; how many packets then differ.
fn scramble_wires(random: &mut Random, octets: &mut [u8]) -> [u64; 2] {
    let mut changed = [0; 2];
    for (wire, places) in WIRES.into_iter().enumerate() {
        for at in filled(octets, places) {
            let packet = &mut octets[at..][..SLOT];
            if wire == UP && forged::is_looked_into(packet) {
                continue;
            }
            let length = usize::from(packet[2]);
            let payload = &mut packet[3..3 + length];
            let before = payload.to_vec();
            scramble_payload(random, payload);
            changed[wire] += u64::from(*payload != before);
        }
    }
    changed
}

/// All octets at random, what looks like credits, or a single octet.
fn scramble_payload(random: &mut Random, payload: &mut [u8]) {
    match random.below(4) {
        0 => {
            let credits = forged::like_credits(random);
            payload.iter_mut().zip(credits).for_each(|(octet, other)| *octet = other);
        }
        1 if !payload.is_empty() => payload[random.below(payload.len())] = random.octet(),
        _ => fill(random, payload),
    }
}

/// A ring that begins anywhere, with forged packets in its filled slots and any octets in the
/// others; how many there are of each kind.
fn forge_wire(random: &mut Random, octets: &mut [u8], wire: (usize, usize)) -> [u64; KINDS] {
    let (slots, ring) = wire;
    fill(random, &mut octets[slots..][..WIRE_SLOTS * SLOT]);
    octets[ring] = random.below(WIRE_SLOTS) as u8;
    octets[ring + 1] = random.below(WIRE_SLOTS + 1) as u8;
    let mut kinds = [0; KINDS];
    for at in filled(octets, wire) {
        let kind = random.below(KINDS);
        let packet = forged::forge(Kind::ALL[kind], random);
        octets[at..][..packet.len()].copy_from_slice(&packet);
        kinds[kind] += 1;
    }
    kinds
}

/// A connection's numbers in the record become those of one that is mostly open at either end,
/// with credits within a grant of its own.
fn open(random: &mut Random, numbers: &mut [u8]) {
    numbers[1] = numbers[1].max(1);
    for [open, grant, count] in [[0, 2, 3], [12, 13, 14]] {
        let granted = random.pick(&[1, 2, 8, 8, 254, 255]);
        numbers[open] = u8::from(random.chance(75));
        numbers[grant] = granted;
        numbers[count] = random.below(usize::from(granted) + 1) as u8;
    }
}
