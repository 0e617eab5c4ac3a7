//! Both benches side by side: every call is made on both, and every word, packet,
//! message, report and number of the record must be the same.

use exam_bench::bench::Bench;
use exam_bench::call::{Call, Event, Outcome};
use exam_bench::connection::CONN_IDS;
use exam_bench::packet::Way;
use exam_bench::player::Random;
use exam_bench::state;
use exam_bench::trial::grants::{self, Source, Sum};
use exam_bench::trial::Tally;

use crate::lent::{Lent, Room, BUFFER, PAST};
use crate::record::{self, AREA};
use crate::word;

/// The refusals that concern octets.
const RECORD_DAMAGED: u64 = 1;
const TOO_SHORT: u64 = 2;

/// The wires as `nci_packet` names them.
const DOWN: u8 = 0;
const UP: u8 = 1;

/// Of so many calls one is also made with too few octets, and one changes how many
/// are lent.
const SHORT: usize = 16;
const OTHER_ROOM: usize = 16;

pub struct Both {
    pub lent: Lent,
    /// None while the record is damaged: then every call but fresh answers 1.
    pub second: Option<Bench>,
    pub tally: Tally,
    /// What the last call came to, where the record was not damaged.
    pub outcome: Option<Outcome>,
    /// The moves that it made, if it was run.
    pub moves: Vec<Event>,
    /// Calls refused for 1 and 2, and calls that only look.
    pub damaged: u64,
    pub short: u64,
    pub looks: u64,
    /// What only damaged benches have: calls that brought credits past a grant, and
    /// packets that a loopback returned with other credits than stood in them.
    pub past_grant: PastGrant,
    pub replaced: u64,
    /// What only benches have whose wires somebody else wrote.
    pub reserved: Reserved,
    room: Room,
}

/// Taken calls that brought credits held or owed past a grant, by what added them.
#[derive(Clone, Debug, Default)]
pub struct PastGrant {
    pub calls: [u64; Source::NAMES.len()],
    /// Those of them whose sum also passed 255, and began at 0 again. By consume there are
    /// none: a record that row 1 lets pass owes at most its grant, 254 with flow control.
    pub wrapped: [u64; Source::NAMES.len()],
    /// Those of them that left credits past a grant: the record is damaged then.
    pub left: u64,
    /// Those of these that were the last moves of presses.
    pub ended: u64,
}

impl PastGrant {
    fn count(&mut self, sums: &[Sum]) {
        if let Some(sum) = sums.iter().find(|sum| sum.passes_grant()) {
            self.calls[sum.source as usize] += 1;
            self.wrapped[sum.source as usize] += u64::from(sums.iter().any(Sum::passes_octet));
        }
    }

    /// Fields `key=value` for one line.
    pub fn fields(&self) -> String {
        let of = |name: &str, calls: &[u64]| {
            let sources = Source::NAMES.iter().zip(calls);
            sources.map(|(source, calls)| format!("{name}-{source}={calls} ")).collect::<String>()
        };
        let left = format!("leftpast={} endpast={}", self.left, self.ended);
        of("past", &self.calls) + &of("wrapped", &self.wrapped) + &left
    }
}

/// Packets that down and up took with reserved bits at 1, by the way and by what is shown: of
/// control, of data, of data in the place of credits, which going up are none, and of a
/// dropped packet nothing.
#[derive(Clone, Debug, Default)]
pub struct Reserved {
    pub packets: [[u64; 4]; 2],
}

impl Reserved {
    fn count(&mut self, way: Way, packet: &[u8], outcome: &Outcome) {
        let [control, data, credits, dropped] = &mut self.packets[way as usize];
        let is_data = packet[0] < 0x20;
        if outcome.drop {
            *dropped += u64::from(packet[1] >= 0x40);
        } else if outcome.rfu != 0 {
            *(if is_data { data } else { control }) += 1;
            *credits += u64::from(is_data && outcome.rfu % 4 != 0);
        }
    }

    /// Fields `key=value` for one line.
    pub fn fields(&self) -> String {
        let ways = ["down", "up"].into_iter().zip(&self.packets);
        let of = |(way, packets): (&str, &[u64; 4])| {
            let [control, data, credits, dropped] = packets;
            let shown =
                format!("rfu-{way}-control={control} rfu-{way}-data={data} rfu-{way}-credits={credits}");
            format!("{shown} rfu-{way}-dropped={dropped}")
        };
        ways.map(of).collect::<Vec<_>>().join(" ")
    }
}

/// What a call is about to meet on a bench.
struct About {
    /// The credits that it adds.
    sums: Vec<Sum>,
    /// The stored packet that consume takes.
    stored: Option<Vec<u8>>,
    /// The packet that down or up takes off its wire.
    first: Option<(Way, Vec<u8>)>,
}

impl About {
    fn new(bench: &Bench, call: &Call) -> About {
        let (mut stored, mut first) = (None, None);
        match call {
            Call::Consume(conn) => {
                stored = bench.controller.connection(*conn).and_then(|open| open.store.front().cloned());
            }
            Call::Down => first = bench.down_wire.front().map(|packet| (Way::Down, packet.clone())),
            Call::Up => first = bench.up_wire.front().map(|packet| (Way::Up, packet.clone())),
            _ => {}
        }
        About { sums: grants::sums(bench, call), stored, first }
    }

    /// Whether the packet that a loopback returned has other credits than stood in it.
    fn replaces(&self, outcome: &Outcome) -> bool {
        let replaced = |stored: &Vec<u8>, put: &Vec<u8>| stored[1] % 4 != 0 && stored[1] % 4 != put[1] % 4;
        matches!((&self.stored, outcome.up.first()), (Some(stored), Some(put)) if replaced(stored, put))
    }
}

impl Default for Both {
    fn default() -> Both {
        Both {
            lent: Lent::default(),
            second: None,
            tally: Tally::default(),
            outcome: None,
            moves: Vec::new(),
            damaged: 0,
            short: 0,
            looks: 0,
            past_grant: PastGrant::default(),
            replaced: 0,
            reserved: Reserved::default(),
            room: Room::EXACT,
        }
    }
}

impl Both {
    /// Begins a list with fresh.
    pub fn begin(&mut self, profile: &[u8]) -> Result<(), String> {
        self.tally.lists += 1;
        self.step(&Call::Fresh(profile.to_vec()))
    }

    /// Puts octets in place of the bench's and loads the second implementation with
    /// what they say.
    pub fn put(&mut self, octets: &[u8]) {
        self.lent.put(octets);
        self.second = record::load(self.lent.octets());
    }

    /// Other lengths at times, exact ones mostly.
    pub fn vary(&mut self, random: &mut Random) {
        if random.below(OTHER_ROOM) == 0 {
            let any = random.below(PAST);
            let (past, spare) = (random.pick(&[0, 0, 0, 0, 1, any]), random.pick(&[0, 0, 1, any]));
            self.room = Room { area: AREA + past, buffer: BUFFER + spare };
        }
    }

    /// At times the call is made with too few octets first; not so read, which is lent none.
    pub fn shorten(&mut self, call: &Call, random: &mut Random) -> Result<(), String> {
        if random.below(SHORT) != 0 || call.is_read() {
            return Ok(());
        }
        let (any, few) = (random.below(AREA), random.below(BUFFER));
        let area = random.pick(&[0, 1, AREA - 1, any]);
        let buffer = random.pick(&[0, 1, BUFFER - 1, few]);
        let room = match random.below(3) {
            0 => Room { area, ..self.room },
            1 => Room { buffer, ..self.room },
            _ => Room { area, buffer },
        };
        let judged = room.area >= AREA && !matches!(call, Call::Fresh(_));
        let due = if judged && self.second.is_none() { RECORD_DAMAGED } else { TOO_SHORT };
        self.short += 1;
        let seen = self.lent.call(call, room)?;
        check(seen.word == due, || format!("{} in {room:?}: word {:#x}", call.name(), seen.word))
    }

    /// Makes a call on both.
    pub fn step(&mut self, call: &Call) -> Result<(), String> {
        self.outcome = None;
        self.moves.clear();
        if let Call::Read(octets) = call {
            return self.read(call, octets);
        }
        let seen = match call {
            Call::Run => self.lent.press(self.room),
            _ => self.lent.call(call, self.room),
        };
        let seen = seen.map_err(|fault| format!("{}: {fault}", call.name()))?;
        let about = self.second.as_ref().map(|bench| About::new(bench, call));
        let before = if *call == Call::Run { self.second.clone() } else { None };
        let Some(outcome) = self.expected(call) else {
            self.damaged += 1;
            return check(seen.word == RECORD_DAMAGED, || {
                format!("{} on a damaged record: word {:#x}", call.name(), seen.word)
            });
        };
        self.tally.count(call, &outcome);
        if let (Some(about), Some(bench)) = (about, &self.second) {
            self.tally.count_command(call, &outcome, bench);
            self.count(about, &outcome);
        }
        if let Some(bench) = before {
            self.make_moves(bench, outcome.moves)?;
        }
        let due = word::of(&outcome);
        check(seen.word == due, || format!("{}: word {:#x} for {due:#x}", call.name(), seen.word))?;
        check(seen.message == outcome.message, || {
            format!("{}: message {:02X?} for {:02X?}", call.name(), seen.message, outcome.message)
        })?;
        self.look(&outcome)?;
        self.outcome = Some(outcome);
        Ok(())
    }

    /// The moves of a press that the second implementation made, one by one from the bench
    /// before it: what each of them met.
    fn make_moves(&mut self, mut bench: Bench, moves: usize) -> Result<(), String> {
        for _ in 0..moves {
            let before = bench.clone();
            let made = bench.make_move().ok_or("run told more moves than there are")?;
            self.tally.count_move(&made);
            self.tally.count_command(&made.call, &made.outcome, &bench);
            self.count(About::new(&before, &made.call), &made.outcome);
            self.moves.push(made);
        }
        self.past_grant.ended += u64::from(bench.is_past_grant());
        check(self.second.as_ref() == Some(&bench), || "run left another bench than its moves".to_string())
    }

    /// What a call met, if it was taken.
    fn count(&mut self, about: About, outcome: &Outcome) {
        if !outcome.taken() {
            return;
        }
        self.tally.count_sums(&about.sums);
        self.past_grant.count(&about.sums);
        self.replaced += u64::from(about.replaces(outcome));
        if let Some((way, packet)) = about.first {
            self.reserved.count(way, &packet, outcome);
        }
    }

    /// Reading alone: whatever the record is, and the area stays.
    fn read(&mut self, call: &Call, octets: &[u8]) -> Result<(), String> {
        let seen = self.lent.look(call, self.room)?;
        let outcome = Bench::read(octets);
        self.tally.count(call, &outcome);
        let due = word::of(&outcome);
        check(seen.word == due, || format!("read of {octets:02X?}: word {:#x} for {due:#x}", seen.word))?;
        self.outcome = Some(outcome);
        self.lent.unchanged()
    }

    /// What the second implementation answers; fresh makes a bench of any octets whose
    /// profile is inside its limits.
    fn expected(&mut self, call: &Call) -> Option<Outcome> {
        if let (Call::Fresh(profile), None) = (call, &self.second) {
            self.second = Bench::new(profile);
            return Some(match self.second {
                Some(_) => Outcome::default(),
                None => Outcome { answer: 3, ..Outcome::default() },
            });
        }
        self.second.as_mut().map(|bench| bench.play(call))
    }

    /// The bench that the call left, the packets that it put, the five numbers of each
    /// connection and what is going on. After a refusal the octets are as they were, and need no look.
    fn look(&mut self, outcome: &Outcome) -> Result<(), String> {
        if !outcome.taken() {
            return Ok(());
        }
        self.compare_benches()?;
        if self.second.is_none() {
            return self.look_refused();
        }
        for (wire, packets) in [(DOWN, &outcome.down), (UP, &outcome.up)] {
            for (back, packet) in packets.iter().rev().enumerate() {
                self.packet(wire, back as u8, Some(packet))?;
            }
        }
        for conn in CONN_IDS {
            self.report(conn)?;
        }
        self.state()
    }

    /// A damaged record shows no packet, no numbers and not what is going on.
    fn look_refused(&mut self) -> Result<(), String> {
        let mut words = Vec::new();
        for conn in CONN_IDS {
            words.push(self.lent.look(&Call::Report(conn), self.room)?.word);
        }
        for wire in [DOWN, UP] {
            words.push(self.lent.packet(wire, 0, self.room)?.word);
        }
        words.push(self.lent.state(self.room)?.word);
        self.looks += words.len() as u64;
        check(words.iter().all(|word| *word == RECORD_DAMAGED), || {
            format!("looks at a damaged record: words {words:x?}")
        })?;
        self.lent.unchanged()
    }

    /// One packet of a wire, or none there.
    fn packet(&mut self, wire: u8, back: u8, due: Option<&Vec<u8>>) -> Result<(), String> {
        self.looks += 1;
        let seen = self.lent.packet(wire, back, self.room)?;
        let outcome = match due {
            Some(packet) => Outcome { message: Some(packet.clone()), ..Outcome::default() },
            None => Outcome { answer: 8, ..Outcome::default() },
        };
        check(seen.word == word::of(&outcome) && seen.message == outcome.message, || {
            format!("packet {back} back on wire {wire}: {seen:02X?} for {due:02X?}")
        })
    }

    /// Every packet of both wires, the first place past them, and the wire that there
    /// is not.
    pub fn wires(&mut self) -> Result<(), String> {
        let Some(second) = &self.second else {
            return Ok(());
        };
        let wires = [(DOWN, second.down_wire.clone()), (UP, second.up_wire.clone())];
        for (wire, packets) in wires {
            for (back, packet) in packets.iter().rev().enumerate() {
                self.packet(wire, back as u8, Some(packet))?;
            }
            self.packet(wire, packets.len() as u8, None)?;
            self.packet(wire, 255, None)?;
        }
        for wire in [2, 255] {
            let seen = self.lent.packet(wire, 0, self.room)?;
            check(seen.word == 3, || format!("packet of wire {wire}: word {:#x}", seen.word))?;
        }
        self.lent.unchanged()
    }

    /// What is going on, or why it is not said.
    pub fn state(&mut self) -> Result<(), String> {
        self.looks += 1;
        let seen = self.lent.state(self.room)?;
        let outcome = match &self.second {
            Some(second) => Outcome { message: Some(state::octets(second)), ..Outcome::default() },
            None => Outcome { answer: RECORD_DAMAGED as u8, ..Outcome::default() },
        };
        check(seen.word == word::of(&outcome) && seen.message == outcome.message, || {
            format!("state: {seen:02X?} for {outcome:02X?}")
        })?;
        self.lent.unchanged()
    }

    fn report(&mut self, conn: u8) -> Result<(), String> {
        let Some(second) = &self.second else {
            return Ok(());
        };
        self.looks += 1;
        let outcome = second.report(conn);
        let seen = self.lent.look(&Call::Report(conn), self.room)?;
        check(seen.word == word::of(&outcome) && seen.message == outcome.message, || {
            format!("report of {conn}: {seen:02X?} for {outcome:02X?}")
        })
    }

    /// The octets say the second implementation's bench. One that has credits past a grant
    /// is gone then: its record is damaged.
    fn compare_benches(&mut self) -> Result<(), String> {
        let Some(second) = &self.second else {
            return Err("a damaged record took the call".to_string());
        };
        let said = record::read(self.lent.octets()).ok_or("the call left a damaged record")?;
        if let Some(part) = record::difference(&said.bench, second) {
            return Err(format!("{part}: {:02X?} for {second:02X?}", said.bench));
        }
        let past_grant = second.is_past_grant();
        check(said.past_grant == past_grant, || "the call left credits past a grant".to_string())?;
        if past_grant {
            self.second = None;
            self.past_grant.left += 1;
        }
        Ok(())
    }
}

fn check(holds: bool, fault: impl FnOnce() -> String) -> Result<(), String> {
    if holds {
        Ok(())
    } else {
        Err(fault())
    }
}
