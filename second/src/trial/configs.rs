//! What sets and gets came to: which are dealt, how they are answered and in which RF states,
//! and which parameters are shown with another value than their default.

use std::collections::BTreeMap;

use crate::bench::Bench;
use crate::call::{Call, Outcome};
use crate::config::{self, PARAMETERS};
use crate::controller::{Phase, Rf};
use crate::layout::{self, CORE, CORE_GET_CONFIG, CORE_SET_CONFIG, STATUS_OK};
use crate::packet::{self, MessageType, Reading};

/// The commands by name, and the statuses that each is answered with.
const COMMANDS: [(&str, u8, &[u8]); 2] = [
    ("set", CORE_SET_CONFIG, &[0x00, 0x05, 0x06, 0x09]),
    ("get", CORE_GET_CONFIG, &[0x00, 0x05, 0x06, 0x09, 0x0A]),
];
const RF_STATES: [&str; 7] = [
    "IDLE",
    "DISCOVERY",
    "W4_ALL_DISCOVERIES",
    "W4_HOST_SELECT",
    "POLL_ACTIVE",
    "LISTEN_ACTIVE",
    "LISTEN_SLEEP",
];

fn rf_state(rf: Rf) -> &'static str {
    let place = match rf {
        Rf::Idle => 0,
        Rf::Discovery => 1,
        Rf::W4AllDiscoveries => 2,
        Rf::W4HostSelect(_) => 3,
        Rf::PollActive(_) => 4,
        Rf::ListenActive(_) => 5,
        Rf::ListenSleep => 6,
    };
    RF_STATES[place]
}

/// All by OID.
#[derive(Clone, Debug, Default)]
pub struct Configs {
    /// Commands taken.
    asked: BTreeMap<u8, u64>,
    /// Responses put up, by status.
    answered: BTreeMap<(u8, u8), u64>,
    /// Those after INIT, by RF state.
    states: BTreeMap<(u8, &'static str), u64>,
    /// Parameters that an OK get showed with another value than the default.
    shown: BTreeMap<u8, u64>,
}

impl Configs {
    /// Counts a call that was made, by the bench after it: none of these changes a state.
    pub fn count(&mut self, call: &Call, outcome: &Outcome, bench: &Bench) {
        match call {
            Call::Command { gid: CORE, oid, .. } if outcome.taken() => {
                *self.asked.entry(*oid).or_default() += 1;
            }
            Call::Down => outcome.up.iter().for_each(|octets| self.count_response(octets, bench)),
            _ => {}
        }
    }

    fn count_response(&mut self, octets: &[u8], bench: &Bench) {
        let Reading::Packet(packet) = packet::read(octets) else {
            return;
        };
        let (true, Some((status, list))) =
            ((packet.message_type, packet.id) == (MessageType::Response, CORE), packet.payload.split_first())
        else {
            return;
        };
        *self.answered.entry((packet.oid, *status)).or_default() += 1;
        if bench.controller().phase() == Phase::Initialised {
            *self.states.entry((packet.oid, rf_state(bench.controller().rf()))).or_default() += 1;
        }
        if (packet.oid, *status) == (CORE_GET_CONFIG, STATUS_OK) {
            self.count_shown(list);
        }
    }

    fn count_shown(&mut self, list: &[u8]) {
        let settings = layout::read_settings(list).map_or(Vec::new(), |(settings, _)| settings);
        for (id, value) in settings {
            let default = config::parameter(id).map(|parameter| parameter.default);
            *self.shown.entry(id).or_default() += u64::from(default != Some(value));
        }
    }

    /// Sets and gets among all commands taken, of a hundred.
    pub fn share(&self, commands: u64) -> u64 {
        let of = |(_, oid, _): &(&str, u8, &[u8])| self.asked.get(oid).copied().unwrap_or_default();
        100 * COMMANDS.iter().map(of).sum::<u64>() / commands.max(1)
    }

    /// Statuses that a set or a get was never answered with, as `set:status`, RF states in
    /// which it never was, as `set:state`, and parameters of which an OK get never showed
    /// another value than the default, as `shown:ID`.
    pub fn gaps(&self) -> Vec<String> {
        let mut gaps = Vec::new();
        for (name, oid, statuses) in COMMANDS {
            let unmet = statuses.iter().filter(|status| !self.answered.contains_key(&(oid, **status)));
            gaps.extend(unmet.map(|status| format!("{name}:{status:02X}")));
            let unmet = RF_STATES.iter().filter(|state| !self.states.contains_key(&(oid, **state)));
            gaps.extend(unmet.map(|state| format!("{name}:{state}")));
        }
        let is_shown = |id: u8| self.shown.get(&id).is_some_and(|shown| *shown > 0);
        let unmet = PARAMETERS.iter().filter(|parameter| !is_shown(parameter.id));
        gaps.extend(unmet.map(|parameter| format!("shown:{:02X}", parameter.id)));
        gaps
    }

    /// Fields `key=value`, a space before each: sets, set-00 and the other statuses, gets, get-00
    /// and the others, shown.
    pub fn fields(&self) -> String {
        let mut fields = String::new();
        for (name, oid, statuses) in COMMANDS {
            fields += &format!(" {name}s={}", self.asked.get(&oid).unwrap_or(&0));
            for status in statuses {
                let answered = self.answered.get(&(oid, *status)).unwrap_or(&0);
                fields += &format!(" {name}-{status:02X}={answered}");
            }
        }
        fields + &format!(" shown={}", self.shown.values().sum::<u64>())
    }
}
