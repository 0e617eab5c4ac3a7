//! What the player puts into a call: arguments, and single calls made of them.

use super::{Lengths, Player};
use crate::bench::Bench;
use crate::call::Call;
use crate::connection::{CONN_IDS, STATIC_RF};
use crate::controller::Pair;
use crate::layout::*;

impl Player {
    /// A profile of five octets or, half the time, of eleven.
    pub(super) fn profile(&mut self) -> Vec<u8> {
        let control = self.random.octet().max(32);
        let mut profile = vec![self.random.pick(&[32, 32, 33, 64, 100, 255, control])];
        let long = self.long_profiles && self.random.chance(50);
        let pairs = if long { 5 } else { 2 };
        for _ in 0..pairs {
            profile.extend([self.payload(), self.credits()]);
        }
        if long && self.random.chance(60) {
            self.tighten_and_loosen(&mut profile);
        }
        profile
    }

    /// One of 2-5 gets small packets and one credit, another large ones and many.
    fn tighten_and_loosen(&mut self, profile: &mut [u8]) {
        let tight = self.random.below(4);
        let loose = (tight + 1 + self.random.below(3)) % 4;
        let terms = [self.random.pick(&[1, 2, 3]), 1];
        profile[1 + 2 * tight..][..2].copy_from_slice(&terms);
        let terms = [self.random.pick(&[64, 100, 254, 255]), self.random.pick(&[8, 255])];
        profile[1 + 2 * loose..][..2].copy_from_slice(&terms);
    }

    /// A profile with an octet that its place may not allow, or, where no line of a sheet
    /// has to say it, with another number of octets.
    fn odd_profile(&mut self) -> Vec<u8> {
        let mut profile = self.profile();
        if self.long_profiles && self.lengths == Lengths::Any && self.random.chance(40) {
            let count = self.random.pick(&[0, 1, 4, 6, 7, 9, 10, 12, 255]);
            profile.resize(count, 1);
        } else {
            let octet = self.random.pick(&[0, 9, 31, 254]);
            let place = self.random.below(profile.len());
            profile[place] = octet;
        }
        profile
    }

    pub(super) fn payload(&mut self) -> u8 {
        let any = self.random.octet().max(1);
        self.random.pick(&[1, 1, 2, 3, 4, 8, 32, 100, 254, 255, any])
    }

    fn credits(&mut self) -> u8 {
        self.random.pick(&[1, 2, 3, 4, 5, 6, 7, 8, 8, 255, 255, 255])
    }

    /// A Conn ID, now and then one that isn't there.
    pub(super) fn conn(&mut self) -> u8 {
        let any = self.random.octet();
        if self.random.chance(4) {
            self.random.pick(&[1, 6, 15, 16, 18, 255, any])
        } else {
            self.random.pick(&CONN_IDS)
        }
    }

    /// A connection open at either end if there is one.
    pub(super) fn open_conn(&mut self, bench: &Bench) -> u8 {
        let is_open = |conn: &u8| {
            bench.host().connection(*conn).is_some() || bench.controller().connection(*conn).is_some()
        };
        let open: Vec<u8> = CONN_IDS.into_iter().filter(is_open).collect();
        if open.is_empty() || self.random.chance(3) {
            self.conn()
        } else {
            self.random.pick(&open)
        }
    }

    pub(super) fn message(&mut self) -> Vec<u8> {
        let length = match self.lengths {
            Lengths::Any => self.any_length(),
            Lengths::Short => self.short_length(),
        };
        self.random.octets(length)
    }

    fn any_length(&mut self) -> usize {
        match self.random.below(20) {
            0..=1 => 0,
            2..=8 => 1 + self.random.below(9),
            9..=12 => self.random.pick(&[4, 8, 16, 32, 64, 100, 254, 255, 256, 508, 510, 765, 1020]),
            13..=15 => self.random.below(1025),
            16..=17 => 1024 - self.random.below(3),
            18 => 1024,
            _ => 1025 + self.random.below(75),
        }
    }

    fn short_length(&mut self) -> usize {
        match self.random.below(60) {
            0..=6 => 0,
            7..=40 => 1 + self.random.below(9),
            41..=55 => 10 + self.random.below(30),
            56..=57 => 256,
            58 => 1024,
            _ => 1025,
        }
    }

    fn parameters(&mut self) -> Vec<u8> {
        let some = self.random.below(8);
        let count = self.random.pick(&[0, 0, 0, 0, 1, some, some, some, 32, 33]);
        self.random.octets(count)
    }

    /// Few IDs and protocols, so that pairs repeat.
    pub(super) fn pair(&mut self) -> Pair {
        let any = self.random.octet();
        Pair { id: self.random.pick(&[1, 2, 3, 254, 0, 255, any]), protocol: self.random.pick(&[0, 4, any]) }
    }

    pub(super) fn good_pair(&mut self) -> Pair {
        Pair { id: 1 + self.random.below(254) as u8, protocol: self.random.octet() }
    }

    // Calls.

    pub(super) fn command(&self, gid: u8, oid: u8, payload: &[u8]) -> Call {
        Call::Command { gid, oid, payload: payload.to_vec() }
    }

    pub(super) fn reset(&mut self) -> Call {
        let reset_type = self.random.pick(&[0, 1]);
        self.command(CORE, CORE_RESET, &[reset_type])
    }

    /// A close, mostly of this connection, or a reset, which alone closes connection 0;
    /// some of them are refused.
    pub(super) fn close_or_reset(&mut self, bench: &Bench, conn: u8) -> Call {
        let (open, any) = (self.open_conn(bench), self.conn());
        match self.random.below(20) {
            0 => self.command(CORE, CORE_CONN_CLOSE, &[]),
            1 => self.command(CORE, CORE_CONN_CLOSE, &[any]),
            2..=3 => self.command(CORE, CORE_CONN_CLOSE, &[open]),
            4 => self.command(CORE, CORE_RESET, &[7]),
            5..=15 if conn != STATIC_RF => self.command(CORE, CORE_CONN_CLOSE, &[conn]),
            _ => self.reset(),
        }
    }

    pub(super) fn discover(&mut self) -> Call {
        let count = self.random.below(9);
        let mut payload = vec![count as u8];
        for _ in 0..count {
            let mode = self.random.pick(&[0, 1, 2, 3, 6, 0x80, 0x81, 0x82, 0x83]);
            let frequency = 1 + self.random.below(10) as u8;
            payload.extend([mode, if mode >= 0x80 { 1 } else { frequency }]);
        }
        self.trail(&mut payload);
        self.command(RF, RF_DISCOVER, &payload)
    }

    /// Trailing extra octets are ignored; more than one segment now and then.
    pub(super) fn trail(&mut self, payload: &mut Vec<u8>) {
        if self.random.chance(10) {
            let room = 255 - payload.len();
            let extra = self.random.below(room + 1);
            payload.extend(self.random.octets(extra));
        }
    }

    pub(super) fn deactivate(&mut self) -> Call {
        let deactivation_type = self.random.pick(&[0, 0, 1, 1, 2, 2, 3, 3, 3, 4, 255]);
        self.command(RF, RF_DEACTIVATE, &[deactivation_type])
    }

    pub(super) fn select(&mut self, bench: &Bench) -> Call {
        let pairs = bench.controller().pairs();
        let pair =
            if pairs.is_empty() || self.random.chance(15) { self.pair() } else { self.random.pick(pairs) };
        let interface = self.random.pick(&[1, 1, 1, 1, 1, 0, 2]);
        self.command(RF, RF_DISCOVER_SELECT, &[pair.id, pair.protocol, interface])
    }

    pub(super) fn found(&mut self, pair: Pair, notification_type: u8) -> Call {
        let mode = self.random.pick(&[0, 1, 2, 3, 6]);
        let mut octets = vec![1, pair.id, pair.protocol, mode, notification_type];
        octets.extend(self.parameters());
        Call::Air(octets)
    }

    pub(super) fn activation(&mut self, kind: u8, pair: Pair) -> Call {
        let mode = if kind == 2 {
            self.random.pick(&[0, 1, 2, 3, 6])
        } else {
            self.random.pick(&[0x80, 0x81, 0x82, 0x83])
        };
        let mut octets = vec![kind, pair.id, pair.protocol, mode];
        octets.extend(self.parameters());
        Call::Air(octets)
    }

    pub(super) fn endpoint_message(&mut self) -> Call {
        let message = self.message();
        Call::Air([&[8][..], &message].concat())
    }

    /// A command of any kind, right or wrong.
    pub(super) fn any_command(&mut self, bench: &Bench) -> Call {
        let any = self.random.octet();
        let length = self.random.pick(&[0, 1, 2, 3, 5, 31, 32, 33, 64, 65, 255, 256]);
        let noise = self.random.octets(length);
        let kinds = if self.configs { 27 } else { 18 };
        match self.random.below(kinds) {
            16..=17 => self.short_command(),
            18..=22 => self.set_config(),
            23.. => self.get_config(),
            0 => self.reset(),
            1 => self.command(CORE, CORE_RESET, &[any]),
            2 => self.command(CORE, CORE_INIT, &noise),
            3 | 4 => self.command(CORE, CORE_CONN_CREATE, &[1, 0]),
            5 => self.command(CORE, CORE_CONN_CREATE, &[any & 3, any >> 6]),
            6 => self.command(CORE, CORE_CONN_CLOSE, &[any & 0xF7]),
            7 => self.discover(),
            8 => self.bad_discover(),
            9 => self.select(bench),
            10 | 11 => self.deactivate(),
            12 => {
                let oid = self.random.pick(&[0, 1, 2, 3, 4, 5, 6, 7, 8, 9, 63]);
                self.command(any & 1, oid, &noise)
            }
            13 => self.command(any & 15, any >> 2, &noise),
            14 => self.command(any, any, &noise),
            _ => self.command(RF, any & 7, &noise),
        }
    }

    /// A known command with an octet too few, or just enough.
    fn short_command(&mut self) -> Call {
        let of_core =
            [CORE_RESET, CORE_INIT, CORE_CONN_CREATE, CORE_CONN_CLOSE, CORE_SET_CONFIG, CORE_GET_CONFIG];
        let of_core = &of_core[..if self.configs { 6 } else { 4 }];
        let of_rf = [RF_DISCOVER, RF_DISCOVER_SELECT, RF_DEACTIVATE];
        let (gid, oid) = if self.random.chance(55) {
            (CORE, self.random.pick(of_core))
        } else {
            (RF, self.random.pick(&of_rf))
        };
        let length = self.random.below(4);
        let payload = self.random.octets(length);
        self.command(gid, oid, &payload)
    }

    pub(super) fn bad_discover(&mut self) -> Call {
        let any = self.random.octet();
        let mut payload = self
            .random
            .pick(&[
                &[1, 4, 1][..],
                &[1, 0, 0],
                &[1, 0, 11],
                &[1, 0x80, 2],
                &[1, 0x84, 1],
                &[2, 0, 1, 0],
                &[9, 0, 1, 0, 1, 0, 1, 0, 1, 0, 1, 0, 1, 0, 1, 0, 1, 0, 1],
                &[128],
                &[],
            ])
            .to_vec();
        if payload.len() == 3 {
            payload[usize::from(any % 2) + 1] ^= any & 0x80;
        }
        self.command(RF, RF_DISCOVER, &payload)
    }

    pub(super) fn any_air(&mut self) -> Call {
        let any = self.random.octet();
        // no line of a sheet says a kind with the octets of another
        let unknown = if self.lengths == Lengths::Any { any } else { any.max(9) };
        let pair = self.pair();
        match self.random.below(12) {
            0..=1 => {
                let notification_type = self.random.pick(&[0, 1, 2, 2, 3]);
                self.found(pair, notification_type)
            }
            2 => self.activation(2, pair),
            3 => self.activation(3, pair),
            4..=7 => Call::Air(vec![self.random.pick(&[4, 5, 6, 7])]),
            8..=9 => self.endpoint_message(),
            10 => Call::Air(vec![self.random.pick(&[0, 9, unknown]), 1, 4, any]),
            _ => Call::Air(self.noise_for_air()),
        }
    }

    /// Octets that the sheet passes on to the call, in whatever order.
    fn noise_for_air(&mut self) -> Vec<u8> {
        let any = self.random.octet();
        vec![self.random.pick(&[1, 2, 3]), any, 4, self.random.octet(), any & 3]
    }

    pub(super) fn random_call(&mut self, bench: &Bench) -> Call {
        match self.random.below(1000) {
            0..=3 => Call::Fresh(self.profile()),
            4..=6 => Call::Fresh(self.odd_profile()),
            7..=10 => Call::Power,
            11..=130 => self.any_command(bench),
            131..=230 => Call::Send { conn: self.open_conn(bench), message: self.message() },
            231..=400 => Call::Push(self.open_conn(bench)),
            401..=540 => Call::Down,
            541..=660 => Call::Consume(self.open_conn(bench)),
            661..=720 => Call::Credit,
            721..=800 => self.any_air(),
            801..=840 => Call::Reply,
            841..=970 => Call::Up,
            _ => Call::Report(self.open_conn(bench)),
        }
    }
}
