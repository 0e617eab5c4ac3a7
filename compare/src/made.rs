//! Benches made by hand: a record by its parts, and a packet first on a wire. All that a call
//! does not look at has octets of its own, so that one which is touched is seen.

use exam_bench::profile::LONG_PROFILE;

use crate::record::{
    AREA, ASKING_AT, DOWN_AT, DOWN_RING, HEARING_AT, RECORD, RECORD_AT, RECORD_ROOM, SAID, SLOT, STORES_AT,
    STORE_SLOTS, UP_AT, UP_RING, VALUES,
};

// Where the parts of the record begin.
pub const SIZE: usize = 11;
pub const ASKED: usize = 12;
pub const HEARING: usize = 16;
pub const PHASE: usize = 22;
pub const GIVEN: usize = 23;
pub const RF: usize = 24;
pub const PAIRS: usize = 28;
pub const FOUND: usize = 44;
pub const ASKING: usize = 45;
pub const ENDPOINT: usize = 51;
pub const DOWN: usize = 156;
pub const UP: usize = 158;
/// The parameters' values, among them the length of PI_B_H_INFO, and PF_BIT_RATE.
pub const CONFIG: usize = RECORD;
pub const INFO_LENGTH: usize = CONFIG + 9;
pub const PF_BIT_RATE: usize = CONFIG + 6;

/// The sides of the connection at a place, of which there are five.
pub const fn host_side(place: usize) -> usize {
    56 + 20 * place
}

pub const fn controller_side(place: usize) -> usize {
    host_side(place) + 12
}

/// Where the side at the controller has the ring of its store.
pub const fn store(place: usize) -> usize {
    controller_side(place) + 3
}

/// A connection open at the host: payload 1, 8 of 8 credits held, 300 of 600 octets in hand
/// gone, 258 in reassembly.
pub const AT_HOST: [u8; 12] = [1, 1, 8, 8, 1, 2, 88, 1, 44, 1, 2, 0];
/// One open at the controller: 2 of 6 credits owed, three packets stored, 513 octets in
/// reassembly.
pub const AT_CONTROLLER: [u8; 8] = [1, 6, 2, 6, 3, 2, 1, 0];
/// 255 of 700 octets of the endpoint's message are gone.
pub const SPOKEN: [u8; 5] = [1, 2, 188, 0, 255];

/// The values as fresh, power and a reset of type 1 leave them.
pub const DEFAULTS: [u8; VALUES] =
    [0, 8, 0, 0, 0, 8, 1, 0, 8, 0, 0, 0, 0, 0, 0, 0, 0, 0, 0, 0, 0, 0, 0, 0, 0, 0, 0, 0x30, 8, 1];
const LEFT_OVER: u8 = 0xEE;
/// Another value of each parameter, seven octets of PI_B_H_INFO.
pub const OTHERS: [u8; VALUES] = [
    1, 3, 0x5A, 1, 0x10, 0, 2, 1, 255, 7, 0xA1, 0xA2, 0xA3, 0xA4, 0xA5, 0xA6, 0xA7, 0, 0, 0, 0, 0, 0, 0, 0,
    3, 1, 0x2F, 9, 0x82,
];

pub const COLD: u8 = 0;
pub const RESET: u8 = 1;
pub const READY: u8 = 2;

pub const IDLE: u8 = 0;
pub const DISCOVERY: u8 = 1;
pub const W4_ALL_DISCOVERIES: u8 = 2;
pub const W4_HOST_SELECT: u8 = 3;
pub const POLL_ACTIVE: u8 = 4;
pub const LISTEN_ACTIVE: u8 = 5;
pub const LISTEN_SLEEP: u8 = 6;

pub const POLL_MODES: [u8; 5] = [0x00, 0x01, 0x02, 0x03, 0x06];
pub const LISTEN_MODES: [u8; 4] = [0x80, 0x81, 0x82, 0x83];

/// Values around every limit.
pub const EDGES: [u8; 27] = [
    0, 1, 2, 3, 4, 5, 6, 7, 8, 9, 10, 11, 31, 32, 33, 127, 128, 129, 130, 131, 132, 143, 144, 160, 253, 254,
    255,
];

/// The octets of a bench.
#[derive(Clone)]
pub struct Made {
    octets: Vec<u8>,
}

impl Made {
    /// Cold, with empty wires. What is left over of the record's room says nothing.
    pub fn cold(profile: &[u8; LONG_PROFILE]) -> Made {
        let made = Made { octets: vec![0; AREA] }.with(0, profile).with(SIZE, &[32]).with(CONFIG, &DEFAULTS);
        made.with(SAID, &[LEFT_OVER; RECORD_ROOM - SAID])
    }

    /// In the middle of things: a command unanswered, messages in reassembly, packets on both
    /// wires, all parameters set.
    pub fn around(profile: &[u8; LONG_PROFILE]) -> Made {
        Made::cold(profile)
            .with(SIZE, &[64, 1, 0, 5, 3])
            .with(HEARING, &[2, 1, 6, 0, 17, 0])
            .with(ASKING, &[1, 0, 4, 0, 40, 0])
            .with(DOWN, &[3, 5])
            .with(UP, &[9, 11])
            .with(CONFIG, &OTHERS)
    }

    /// Octets of the record from a place on.
    pub fn with(mut self, place: usize, octets: &[u8]) -> Made {
        self.octets[RECORD_AT + place..][..octets.len()].copy_from_slice(octets);
        self
    }

    /// The first packet of the down wire, which is not empty.
    pub fn down_first(self, packet: &[u8]) -> Made {
        self.first(DOWN_AT, DOWN_RING, packet)
    }

    pub fn up_first(self, packet: &[u8]) -> Made {
        self.first(UP_AT, UP_RING, packet)
    }

    /// The oldest packet in the store of the connection at a place, which is not empty.
    pub fn stored_first(self, place: usize, packet: &[u8]) -> Made {
        self.first(STORES_AT + place * STORE_SLOTS * SLOT, RECORD_AT + store(place), packet)
    }

    /// The controller has these octets of a command in reassembly.
    pub fn asking(mut self, gid: u8, oid: u8, octets: &[u8]) -> Made {
        self.octets[ASKING_AT..][..octets.len()].copy_from_slice(octets);
        self.with(ASKING, &[1, gid, oid, 0, octets.len() as u8, 0])
    }

    /// The host has these octets of a control message in reassembly.
    pub fn hearing(mut self, mt: u8, gid: u8, oid: u8, octets: &[u8]) -> Made {
        self.octets[HEARING_AT..][..octets.len()].copy_from_slice(octets);
        self.with(HEARING, &[mt, gid, oid, 0, octets.len() as u8, 0])
    }

    fn first(mut self, slots: usize, ring: usize, packet: &[u8]) -> Made {
        assert_ne!(self.octets[ring + 1], 0, "a ring with a packet");
        let slot = slots + usize::from(self.octets[ring]) * SLOT;
        self.octets[slot..][..packet.len()].copy_from_slice(packet);
        self
    }

    pub fn octets(&self) -> &[u8] {
        &self.octets
    }

    pub fn record(&self) -> &[u8] {
        record(&self.octets)
    }
}

/// The octets of a bench's record that say anything, the parameters' values behind it too.
pub fn record(area: &[u8]) -> &[u8] {
    &area[RECORD_AT..][..SAID]
}

/// The octets behind them, which no call but fresh writes.
pub fn left_over(area: &[u8]) -> &[u8] {
    &area[RECORD_AT + SAID..][..RECORD_ROOM - SAID]
}

/// A controller's state.
#[derive(Clone, Debug)]
pub struct State {
    pub profile: [u8; LONG_PROFILE],
    pub phase: u8,
    pub given: u8,
    /// A bit for each connection that is open: bit 0 for 0, bits 1 to 4 for 2 to 5.
    pub opened: u8,
    /// The RF state, and the selection or the activation that it carries.
    pub rf: [u8; 4],
    pub pairs: Vec<[u8; 2]>,
}

/// Control payload 32, and a pair of its own for each connection.
pub const PROFILE: [u8; LONG_PROFILE] = [0x20, 4, 2, 1, 1, 0xFF, 8, 0x64, 0xFF, 4, 1];
/// Pairs that a list may have; the states here list the first three.
pub const FOUND_PAIRS: [[u8; 2]; 9] =
    [[1, 4], [1, 5], [2, 4], [2, 5], [3, 4], [3, 5], [4, 4], [4, 5], [5, 4]];

impl Default for State {
    fn default() -> State {
        State { profile: PROFILE, phase: READY, given: 0, opened: 0, rf: [IDLE, 0, 0, 0], pairs: Vec::new() }
    }
}

impl State {
    /// In another RF state; the list of pairs is emptied in IDLE.
    pub fn to(&self, rf: u8, carried: [u8; 3]) -> State {
        let [a, b, c] = carried;
        let pairs = if rf == IDLE { Vec::new() } else { self.pairs.clone() };
        State { rf: [rf, a, b, c], pairs, ..self.clone() }
    }

    pub fn plain(&self, rf: u8) -> State {
        self.to(rf, [0; 3])
    }

    /// In W4_HOST_SELECT with a pair selected, or none.
    pub fn selected(&self, pair: Option<[u8; 2]>) -> State {
        match pair {
            Some([id, protocol]) => self.to(W4_HOST_SELECT, [1, id, protocol]),
            None => self.plain(W4_HOST_SELECT),
        }
    }

    /// The bench with its controller in this state. Where connection 0 is open, the endpoint
    /// has a message in hand.
    pub fn made(&self) -> Made {
        let mut made = Made::around(&self.profile)
            .with(PHASE, &[self.phase, self.given])
            .with(RF, &self.rf)
            .with(PAIRS, &self.pairs.concat())
            .with(FOUND, &[self.pairs.len() as u8]);
        if self.opened & 1 == 1 {
            made = made.with(ENDPOINT, &SPOKEN);
        }
        for place in 0..5 {
            made = made.with(host_side(place), &AT_HOST);
            if self.opened >> place & 1 == 1 {
                made = made.with(controller_side(place), &AT_CONTROLLER);
            }
        }
        made
    }

    /// The same, where the first packet on the down wire is this command.
    pub fn commanded(&self, gid: u8, oid: u8, payload: &[u8]) -> Made {
        let packet = [&[0x20 | gid, oid, payload.len() as u8], payload].concat();
        self.made().with(ASKING, &[0; 6]).down_first(&packet)
    }

    /// The same with these values of parameters.
    pub fn configured(&self, values: &[u8; VALUES], oid: u8, payload: &[u8]) -> Made {
        self.commanded(0, oid, payload).with(CONFIG, values)
    }

    /// The same with empty wires, as an activation asks, and with no message of the endpoint
    /// where an event brings one.
    pub fn aired(&self, event: &[u8]) -> Made {
        let made = self.made().with(DOWN, &[3, 0]).with(UP, &[9, 0]);
        if event.first() == Some(&8) {
            made.with(ENDPOINT, &[0; 5])
        } else {
            made
        }
    }
}

/// Each RF state with each thing that it can carry, by name. Connections 2 and 4 are open.
pub fn rf_states() -> Vec<(String, State)> {
    let idle = State { given: 4, opened: 0b01010, ..State::default() };
    let found = State { pairs: FOUND_PAIRS[..3].to_vec(), ..idle.plain(DISCOVERY) };
    let [id, protocol] = FOUND_PAIRS[0];
    let active = State { opened: found.opened | 1, ..found.clone() };
    let mut states = vec![
        ("idle".to_string(), idle.clone()),
        ("disc".to_string(), idle.plain(DISCOVERY)),
        ("disc-list".to_string(), found.clone()),
        ("all".to_string(), found.plain(W4_ALL_DISCOVERIES)),
        ("select".to_string(), found.selected(None)),
        ("chosen".to_string(), found.selected(Some(FOUND_PAIRS[0]))),
    ];
    for mode in POLL_MODES {
        states.push((format!("poll{mode:02X}"), active.to(POLL_ACTIVE, [id, protocol, mode])));
    }
    for mode in LISTEN_MODES {
        states.push((format!("listen{mode:02X}"), active.to(LISTEN_ACTIVE, [id, protocol, mode])));
    }
    states.push(("sleep".to_string(), found.plain(LISTEN_SLEEP)));
    states
}

pub fn rf_state(name: &str) -> State {
    let states = rf_states();
    let found = states.into_iter().find(|(known, _)| known == name);
    found.unwrap_or_else(|| panic!("no state is named {name}")).1
}

/// The host of a bench.
#[derive(Clone, Copy, Debug)]
pub struct AtHost {
    pub size: u8,
    pub opened: u8,
    /// GID and OID of the unanswered command, and the connection that it names.
    pub pending: Option<[u8; 3]>,
}

impl AtHost {
    /// After power, with these connections open.
    pub fn alone(opened: u8) -> AtHost {
        AtHost { size: 32, opened, pending: None }
    }

    pub fn awaiting(self, gid: u8, oid: u8, aim: u8) -> AtHost {
        AtHost { size: 40, pending: Some([gid, oid, aim]), ..self }
    }

    /// The bench with this host, all connections open at its controller.
    pub fn made(&self) -> Made {
        let mut made = Made::around(&PROFILE)
            .with(SIZE, &[self.size, 0, 0, 0, 0])
            .with(PHASE, &[READY])
            .with(ENDPOINT, &SPOKEN);
        if let Some([gid, oid, aim]) = self.pending {
            made = made.with(ASKED, &[1, gid, oid, aim]);
        }
        for place in 0..5 {
            made = made.with(controller_side(place), &AT_CONTROLLER);
            if self.opened >> place & 1 == 1 {
                made = made.with(host_side(place), &AT_HOST);
            }
        }
        made
    }

    /// The same, where the first packet on the up wire is this one.
    pub fn given(&self, packet: &[u8]) -> Made {
        heard(self.made(), packet)
    }
}

/// A bench whose host has no control message in reassembly, and a packet first on its up wire.
pub fn heard(made: Made, packet: &[u8]) -> Made {
    made.with(HEARING, &[0; 6]).up_first(packet)
}

/// A connection open at the host with payload 4, where 4 of 8 credits are held and nothing is in
/// hand; at the controller, where nothing is owed and the store is empty.
const STILL_AT_HOST: [u8; 12] = [1, 4, 8, 4, 0, 0, 0, 0, 0, 0, 0, 0];
const STILL_AT_CONTROLLER: [u8; 8] = [1, 8, 0, 6, 0, 0, 0, 0];

/// All connections open at both ends, and no move left.
pub fn still() -> Made {
    let open = |made: Made, place| {
        made.with(host_side(place), &STILL_AT_HOST).with(controller_side(place), &STILL_AT_CONTROLLER)
    };
    let made = Made::cold(&PROFILE).with(SIZE, &[64]).with(PHASE, &[READY, 5]);
    (0..5).fold(made.with(RF, &[POLL_ACTIVE, 1, 4, 0]), open)
}
