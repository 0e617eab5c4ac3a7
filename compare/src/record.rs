//! A decoder of the record and the area, written from the map of the area and from
//! row 1 of document 01, "Numbers for a call not taken": what a bench in octets says,
//! as a bench of the second implementation.

use exam_bench::bench::Bench;
use exam_bench::config::Values;
use exam_bench::connection::{CONN_IDS, LAST_DYNAMIC};
use exam_bench::controller::{self, Activation, Controller, Pair, Phase, Rf};
use exam_bench::host::{self, Host, Unanswered};
use exam_bench::packet::{ControlRun, InHand, MessageType, Run};
use exam_bench::profile::{Profile, Terms, LONG_PROFILE};
use std::collections::VecDeque;

/// Octets of an area, and of the record at its end.
pub const AREA: usize = 36864;
pub const RECORD_ROOM: usize = 512;
/// Octets of the record, of the parameters' values behind it, and of both: those of the
/// record's room that say anything.
pub const RECORD: usize = 160;
pub const VALUES: usize = 30;
pub const SAID: usize = RECORD + VALUES;
/// Where the record begins.
pub const RECORD_AT: usize = AREA - RECORD_ROOM;

/// Octets of a slot, and slots of a wire and of a store.
pub const SLOT: usize = 258;
pub const WIRE_SLOTS: usize = 16;
pub const STORE_SLOTS: usize = 8;
const MESSAGE: usize = 1024;
const CONTROL: usize = 255;

// Where each part begins; parts of connections follow one another by place.
pub const DOWN_AT: usize = 0;
pub const UP_AT: usize = DOWN_AT + WIRE_SLOTS * SLOT;
pub const STORES_AT: usize = UP_AT + WIRE_SLOTS * SLOT;
const HANDS_AT: usize = STORES_AT + 5 * STORE_SLOTS * SLOT;
const ENDPOINT_AT: usize = HANDS_AT + 5 * MESSAGE;
const HOST_RUNS_AT: usize = ENDPOINT_AT + MESSAGE;
const CONTROLLER_RUNS_AT: usize = HOST_RUNS_AT + 5 * MESSAGE;
pub const ASKING_AT: usize = CONTROLLER_RUNS_AT + 5 * MESSAGE;
pub const HEARING_AT: usize = ASKING_AT + CONTROL;

/// Where the record has a wire's ring: the slot of its first packet, then how many there are.
pub const DOWN_RING: usize = RECORD_AT + RECORD - 4;
pub const UP_RING: usize = DOWN_RING + 2;

/// The parameters whose values have one octet each, before PI_B_H_INFO and after it. That has
/// an octet with its length, and fifteen.
pub const BEFORE_INFO: [u8; 9] = [0x08, 0x09, 0x10, 0x11, 0x13, 0x14, 0x18, 0x19, 0x1A];
pub const INFO: u8 = 0x20;
pub const AFTER_INFO: [u8; 5] = [0x21, 0x28, 0x2A, 0x2F, 0x68];
pub const INFO_ROOM: usize = 15;

/// What a record says.
pub struct Said {
    pub bench: Bench,
    /// Whether a connection, open or not, has more credits held or owed than granted.
    pub past_grant: bool,
}

/// The bench that the area says, or none where its record cannot be: refusal 1. The
/// area has at least 36,864 octets.
pub fn load(area: &[u8]) -> Option<Bench> {
    read(area).filter(|said| !said.past_grant).map(|said| said.bench)
}

/// The same, also where credits are past a grant: a call on a damaged bench may leave that.
pub fn read(area: &[u8]) -> Option<Said> {
    let mut reader = Reader { area, at: RECORD_AT, past_grant: false };
    let profile = reader.profile()?;
    let mut host = reader.host()?;
    host.control_run = reader.control_run(HEARING_AT)?;
    let mut controller = reader.controller(profile)?;
    controller.control_run = reader.control_run(ASKING_AT)?;
    controller.endpoint_message = reader.in_hand(ENDPOINT_AT)?;
    for (place, conn) in CONN_IDS.into_iter().enumerate() {
        host.connections[place] = reader.at_host(place)?;
        controller.connections[place] = reader.at_controller(place, profile.terms_of(conn).payload)?;
    }
    let down_wire = reader.ring(DOWN_AT, WIRE_SLOTS)?;
    let up_wire = reader.ring(UP_AT, WIRE_SLOTS)?;
    debug_assert_eq!(reader.at, RECORD_AT + RECORD);
    controller.config = reader.values()?;
    debug_assert_eq!(reader.at, RECORD_AT + SAID);
    let bench = Bench { profile, down_wire, up_wire, host, controller };
    Some(Said { bench, past_grant: reader.past_grant })
}

/// Reads the record from its first octet to its last, and goes to the parts of the
/// area that it names. None is an octet, or a part, that cannot be.
struct Reader<'a> {
    area: &'a [u8],
    at: usize,
    past_grant: bool,
}

fn only_if(holds: bool) -> Option<()> {
    holds.then_some(())
}

impl Reader<'_> {
    fn octet(&mut self) -> u8 {
        self.at += 1;
        self.area[self.at - 1]
    }

    /// Two octets, high first.
    fn wide(&mut self) -> usize {
        usize::from(self.octet()) << 8 | usize::from(self.octet())
    }

    /// Yes or no.
    fn flag(&mut self) -> Option<bool> {
        match self.octet() {
            0 => Some(false),
            1 => Some(true),
            _ => None,
        }
    }

    fn part(&self, at: usize, octets: usize) -> Vec<u8> {
        self.area[at..at + octets].to_vec()
    }

    /// In the long form, whichever fresh was given.
    fn profile(&mut self) -> Option<Profile> {
        let octets = self.part(self.at, LONG_PROFILE);
        self.at += LONG_PROFILE;
        Profile::read(&octets)
    }

    /// The host's size of commands and the unanswered one.
    fn host(&mut self) -> Option<Host> {
        let control_size = self.octet();
        only_if(control_size >= 32)?;
        let pending = self.flag()?;
        let command = Unanswered { gid: self.octet(), oid: self.octet(), named: Some(self.octet()) };
        Some(Host { control_size, unanswered: pending.then_some(command), ..Host::cold() })
    }

    /// A run of a message type that no packet has goes on with none.
    fn control_run(&mut self, at: usize) -> Option<ControlRun> {
        let (mt, gid, oid) = (self.octet(), self.octet(), self.octet());
        let of = match mt {
            0 => Some(MessageType::Data),
            1 => Some(MessageType::Command),
            2 => Some(MessageType::Response),
            3 => Some(MessageType::Notification),
            _ => None,
        };
        let mut whole = ControlRun::new();
        self.run(&mut whole.run, at, CONTROL)?;
        match of {
            Some(of) => Some(ControlRun { of: Some((of, gid, oid)), ..whole }),
            None => Some(ControlRun::new()),
        }
    }

    /// A run that is lost holds no octets.
    fn run(&mut self, run: &mut Run, at: usize, most: usize) -> Option<()> {
        let octets = self.wide();
        only_if(octets <= most)?;
        run.past_limit = self.flag()?;
        if !run.past_limit {
            run.octets = self.part(at, octets);
        }
        Some(())
    }

    fn data_run(&mut self, at: usize) -> Option<Run> {
        let mut run = Run::of_data();
        self.run(&mut run, at, MESSAGE)?;
        Some(run)
    }

    /// Judged whether or not the message is in hand.
    fn in_hand(&mut self, at: usize) -> Option<Option<InHand>> {
        let full = self.flag()?;
        let octets = self.wide();
        let gone = self.wide();
        only_if(octets <= MESSAGE && gone <= octets)?;
        Some(full.then(|| InHand { octets: self.part(at, octets), gone }))
    }

    fn controller(&mut self, profile: Profile) -> Option<Controller> {
        let phase = match self.octet() {
            0 => Phase::Cold,
            1 => Phase::Reset,
            2 => Phase::Initialised,
            _ => return None,
        };
        let last_given = match self.octet() {
            0 => LAST_DYNAMIC,
            given @ 2..=5 => given,
            _ => return None,
        };
        let rf = self.rf()?;
        let pairs: Vec<Pair> = (0..8).map(|_| Pair { id: self.octet(), protocol: self.octet() }).collect();
        let count = usize::from(self.octet());
        let pairs = pairs.get(..count)?.to_vec();
        Some(Controller { phase, rf, pairs, last_given, ..Controller::cold(profile) })
    }

    fn rf(&mut self) -> Option<Rf> {
        let [state, a, b, c] = [self.octet(), self.octet(), self.octet(), self.octet()];
        let activation = Activation { id: a, protocol: b, mode: c };
        match (state, a) {
            (0, _) => Some(Rf::Idle),
            (1, _) => Some(Rf::Discovery),
            (2, _) => Some(Rf::W4AllDiscoveries),
            (3, 0) => Some(Rf::W4HostSelect(None)),
            (3, 1) => Some(Rf::W4HostSelect(Some(Pair { id: b, protocol: c }))),
            (4, _) => Some(Rf::PollActive(activation)),
            (5, _) => Some(Rf::ListenActive(activation)),
            (6, _) => Some(Rf::ListenSleep),
            _ => None,
        }
    }

    /// A connection at the host, if it is open there. Credits held, lengths and
    /// positions are judged open or not, the payload only where open.
    fn at_host(&mut self, place: usize) -> Option<Option<host::Connection>> {
        let open = self.flag()?;
        let terms = Terms { payload: self.octet(), credits: self.octet() };
        let held = self.octet();
        let in_hand = self.in_hand(HANDS_AT + place * MESSAGE)?;
        let run = self.data_run(HOST_RUNS_AT + place * MESSAGE)?;
        self.past_grant |= held > terms.credits;
        only_if(!open || terms.payload >= 1)?;
        Some(open.then_some(host::Connection { terms, held, in_hand, run }))
    }

    /// A connection at the controller, if it is open there. The payload is the
    /// profile's: this end keeps none.
    fn at_controller(&mut self, place: usize, payload: u8) -> Option<Option<controller::Connection>> {
        let open = self.flag()?;
        let terms = Terms { payload, credits: self.octet() };
        let owed = self.octet();
        let store = self.ring(STORES_AT + place * STORE_SLOTS * SLOT, STORE_SLOTS)?;
        let run = self.data_run(CONTROLLER_RUNS_AT + place * MESSAGE)?;
        self.past_grant |= owed > terms.credits;
        Some(open.then_some(controller::Connection { terms, store, owed, run }))
    }

    /// The packets in a ring of slots, each cut to the length that it states.
    fn ring(&mut self, at: usize, slots: usize) -> Option<VecDeque<Vec<u8>>> {
        let (head, count) = (usize::from(self.octet()), usize::from(self.octet()));
        only_if(head < slots && count <= slots)?;
        let packet = |place: usize| {
            let slot = &self.area[at + (head + place) % slots * SLOT..][..SLOT];
            slot[..3 + usize::from(slot[2])].to_vec()
        };
        Some((0..count).map(packet).collect())
    }

    /// Each value is one that a set leaves; octets past the length of PI_B_H_INFO are 0.
    fn values(&mut self) -> Option<Values> {
        let mut values = Values::defaults();
        for id in BEFORE_INFO {
            only_if(values.set(id, &[self.octet()]))?;
        }
        let length = usize::from(self.octet());
        let room = self.part(self.at, INFO_ROOM);
        self.at += INFO_ROOM;
        let (info, past) = room.split_at_checked(length)?;
        only_if(values.set(INFO, info) && past.iter().all(|octet| *octet == 0))?;
        for id in AFTER_INFO {
            only_if(values.set(id, &[self.octet()]))?;
        }
        Some(values)
    }
}

/// The first part in which two benches differ, or none.
///
/// A control run without octets that is not lost goes on like none, whatever message
/// it names. A command that named no connection is kept as naming 1, which no connection is.
pub fn difference(one: &Bench, other: &Bench) -> Option<&'static str> {
    let parts = [
        ("the profile", one.profile == other.profile && one.controller.profile == other.controller.profile),
        ("the down wire", one.down_wire == other.down_wire),
        ("the up wire", one.up_wire == other.up_wire),
        ("the host's size of commands", one.host.control_size == other.host.control_size),
        ("the unanswered command", unanswered(one) == unanswered(other)),
        ("the host's connections", one.host.connections == other.host.connections),
        ("the host's control run", same_run(&one.host.control_run, &other.host.control_run)),
        ("the controller's phase", one.controller.phase == other.controller.phase),
        ("the RF state", one.controller.rf == other.controller.rf),
        ("the pairs", one.controller.pairs == other.controller.pairs),
        ("the values of parameters", one.controller.config == other.controller.config),
        ("the Conn ID last given", one.controller.last_given == other.controller.last_given),
        ("the controller's connections", one.controller.connections == other.controller.connections),
        ("the controller's run", same_run(&one.controller.control_run, &other.controller.control_run)),
        ("the endpoint's message", one.controller.endpoint_message == other.controller.endpoint_message),
    ];
    parts.into_iter().find(|(_, same)| !same).map(|(part, _)| part)
}

fn unanswered(bench: &Bench) -> Option<(u8, u8, u8)> {
    bench.host.unanswered.map(|command| (command.gid, command.oid, command.named.unwrap_or(1)))
}

fn same_run(one: &ControlRun, other: &ControlRun) -> bool {
    let begun = |run: &ControlRun| run.run.past_limit || !run.run.octets.is_empty();
    one.run == other.run && (one.of == other.of || !begun(one))
}
