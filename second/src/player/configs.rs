//! Lists of parameters for sets and gets, right and wrong, and plans made of them.

use super::{Player, Step};
use crate::bench::Bench;
use crate::call::Call;
use crate::config::{self, Parameter, PARAMETERS};
use crate::controller::Phase;
use crate::layout::{read_settings, CORE, CORE_GET_CONFIG, CORE_RESET, CORE_SET_CONFIG};
use crate::packet::MOST_CONTROL_MESSAGE;

/// IDs beside the known ones; POWER_STATE, PB_ATTRIB_PARAM1 and PN_ATR_REQ_GEN_BYTES among them.
const UNKNOWN: [u8; 9] = [0x00, 0x03, 0x07, 0x0A, 0x12, 0x15, 0x29, 0x69, 0xFF];
/// PI_B_H_INFO, which alone has values of more octets than one.
const LONG: u8 = 0x20;
/// Its most octets, and the most that one parameter has in a command of 255.
const LONG_VALUE: usize = 15;
const LONGEST: usize = 252;

impl Player {
    fn parameter(&mut self) -> &'static Parameter {
        &PARAMETERS[self.random.below(PARAMETERS.len())]
    }

    fn unknown_id(&mut self) -> u8 {
        let any = self.random.octet();
        if config::is_known(any) || self.random.chance(50) {
            self.random.pick(&UNKNOWN)
        } else {
            any
        }
    }

    /// A value that the parameter can have.
    fn value_of(&mut self, parameter: &Parameter) -> Vec<u8> {
        let length = if parameter.id == LONG { self.random.pick(&[1, 2, 14, 15, 15]) } else { 1 };
        let range = &parameter.octets[self.random.below(parameter.octets.len())];
        let octet = |player: &mut Player| {
            range.start() + player.random.below(usize::from(range.end() - range.start()) + 1) as u8
        };
        (0..length).map(|_| octet(self)).collect()
    }

    /// At the border of what an octet may be, or past it.
    fn border_of(&mut self, parameter: &Parameter) -> u8 {
        let range = &parameter.octets[self.random.below(parameter.octets.len())];
        let (start, end) = (*range.start(), *range.end());
        self.random.pick(&[start, end, start.wrapping_sub(1), end.wrapping_add(1)])
    }

    /// A parameter of a set: mostly with a value that it can have, without one at times, or
    /// with a wrong number of octets.
    fn setting(&mut self, id: u8) -> Vec<u8> {
        let some = self.random.below(4);
        let value = match (config::parameter(id), self.random.below(20)) {
            (_, 0..=2) => Vec::new(),
            (None, _) => self.random.octets(some),
            (Some(_), 3) => {
                let length = self.random.pick(&[2, 3, 14, 15, 16, 17, 100]);
                self.random.octets(length)
            }
            (Some(parameter), 4..=8) => vec![self.border_of(parameter)],
            (Some(parameter), _) => self.value_of(parameter),
        };
        [&[id, value.len() as u8][..], &value].concat()
    }

    /// The list of a set. Some IDs are repeated, some unknown.
    fn settings(&mut self) -> Vec<u8> {
        let unknown = self.random.pick(&[0, 0, 10, 40, 100]);
        let (mut payload, mut ids) = (vec![0], Vec::new());
        for _ in 0..self.random.pick(&[0, 1, 1, 1, 1, 2, 2, 3, 4, 6, 15, 40]) {
            let id = match self.random.below(100) {
                0..20 if !ids.is_empty() => self.random.pick(&ids),
                20.. if self.random.chance(unknown) => self.unknown_id(),
                _ => self.parameter().id,
            };
            let setting = self.setting(id);
            if payload.len() + setting.len() > MOST_CONTROL_MESSAGE {
                break;
            }
            ids.push(id);
            payload.extend(setting);
            payload[0] += 1;
        }
        payload
    }

    /// As many octets as a command has: one parameter of 252 octets, or 127 without any.
    fn full_settings(&mut self) -> Vec<u8> {
        let id = if self.random.chance(50) { self.parameter().id } else { self.unknown_id() };
        if self.random.chance(50) {
            return [vec![1, id, LONGEST as u8], self.random.octets(LONGEST)].concat();
        }
        let count = self.random.pick(&[126, 127]);
        [vec![count], [id, 0].repeat(usize::from(count))].concat()
    }

    /// The IDs that a get asks for: some known ones, unknown ones among them at times, all
    /// that there are, or so many that the response is as long as it can be, or longer.
    fn ids(&mut self) -> Vec<u8> {
        let (known, unknown) = (self.parameter().id, self.unknown_id());
        match self.random.below(20) {
            0 => vec![known; self.random.pick(&[83, 84, 85, 86, 126])],
            1 => vec![unknown; self.random.pick(&[125, 126, 127, 128, 254])],
            2 => vec![LONG; self.random.pick(&[14, 15, 126, 127])],
            3..=4 => PARAMETERS.iter().map(|parameter| parameter.id).collect(),
            choice => {
                let others = if choice < 9 { 40 } else { 0 };
                let count = self.random.pick(&[0, 1, 1, 2, 3, 4, 8]);
                let id = |player: &mut Player| match player.random.chance(others) {
                    true => player.unknown_id(),
                    false => player.parameter().id,
                };
                (0..count).map(|_| id(self)).collect()
            }
        }
    }

    /// A list that is cut short anywhere, counts more than there is, or less, or has octets to
    /// spare; mostly it stays as it is.
    fn misshape(&mut self, payload: &mut Vec<u8>) {
        let (any, more) = (self.random.octet(), 1 + self.random.below(3) as u8);
        match self.random.below(24) {
            0..=1 => payload.truncate(self.random.below(payload.len() + 1)),
            2 => payload[0] = payload[0].saturating_add(more),
            3 => payload[0] = payload[0].saturating_sub(more),
            4 => payload[0] = any,
            _ => self.trail(payload),
        }
    }

    fn set(&mut self, mut payload: Vec<u8>) -> Call {
        self.misshape(&mut payload);
        self.command(CORE, CORE_SET_CONFIG, &payload)
    }

    fn get(&mut self, ids: &[u8]) -> Call {
        let mut payload = [&[ids.len() as u8], ids].concat();
        self.misshape(&mut payload);
        self.command(CORE, CORE_GET_CONFIG, &payload)
    }

    pub(super) fn set_config(&mut self) -> Call {
        let payload = if self.random.chance(6) { self.full_settings() } else { self.settings() };
        self.set(payload)
    }

    pub(super) fn get_config(&mut self) -> Call {
        let ids = self.ids();
        self.get(&ids)
    }

    /// Every parameter, in some order.
    fn get_all(&mut self) -> Call {
        let mut ids: Vec<u8> = PARAMETERS.iter().map(|parameter| parameter.id).collect();
        ids.rotate_left(self.random.below(PARAMETERS.len()));
        self.command(CORE, CORE_GET_CONFIG, &[&[ids.len() as u8], &ids[..]].concat())
    }

    // Plans.

    /// Sets and gets: each alone, a get of what was set, and what a reset or power leaves of it.
    pub(super) fn plan_configure(&mut self, bench: &Bench) {
        match self.random.below(40) {
            0..=3 => {
                let set = self.set_config();
                self.then_command(set);
            }
            4..=15 => {
                let get = self.get_config();
                self.then_command(get);
            }
            16..=32 => self.plan_set_and_get(),
            33..=36 => self.plan_long_value(),
            _ if bench.controller().phase() != Phase::Initialised => self.plan_set_and_get(),
            37..=38 => self.plan_set_and_reset(),
            _ => {
                let set = self.set_config();
                self.then_command(set);
                self.then(Call::Power);
                self.plan_bring_up();
                let get = self.get_all();
                self.then_command(get);
            }
        }
    }

    /// One or two sets, and a get of the IDs of the first, or of all.
    fn plan_set_and_get(&mut self) {
        let payload = self.settings();
        let named = read_settings(&payload).map_or(Vec::new(), |(settings, _)| settings);
        let ids: Vec<u8> = named.iter().map(|(id, _)| *id).collect();
        let set = self.set(payload);
        self.then_command(set);
        if self.random.chance(20) {
            let again = self.set_config();
            self.then_command(again);
        }
        let get = if self.random.chance(30) { self.get_all() } else { self.get(&ids) };
        self.then_command(get);
    }

    /// The longest value, asked for as often as a response can show it, and once more.
    fn plan_long_value(&mut self) {
        let value = self.random.octets(LONG_VALUE);
        let set = self.command(CORE, CORE_SET_CONFIG, &[&[1, LONG, LONG_VALUE as u8], &value[..]].concat());
        self.then_command(set);
        let count = self.random.pick(&[1, 13, 14, 15, 16]);
        let get = self.command(CORE, CORE_GET_CONFIG, &[vec![count], vec![LONG; count.into()]].concat());
        self.then_command(get);
    }

    /// A set, a reset of either type or of another, and what it left.
    fn plan_set_and_reset(&mut self) {
        let set = self.set_config();
        self.then_command(set);
        let reset_type = self.random.pick(&[0, 0, 1, 2]);
        let reset = self.command(CORE, CORE_RESET, &[reset_type]);
        self.then(reset);
        self.plan.push_back(Step::Settle);
        if reset_type < 2 {
            self.plan_init();
        }
        let get = self.get_all();
        self.then_command(get);
    }
}
