//! The diary of configuration values, from commands and the responses to them alone: for each
//! parameter the value last accepted since it was last restored, else its default.
//!
//! What is accepted, and the defaults, stand here once more, as 003 has them (Tables 24 to 32
//! and 132): the controller's table does not excuse itself.

use std::collections::BTreeMap;

use super::{see_packet, Observer};
use crate::call::Call;

// Statuses (003, Table 129).
const OK: u8 = 0x00;
const INVALID_PARAM: u8 = 0x09;

/// None for an ID that the controller does not have.
fn default_of(id: u8) -> Option<&'static [u8]> {
    match id {
        0x08 | 0x10 | 0x11 | 0x13 | 0x19 | 0x21 | 0x28 => Some(&[0x00]),
        0x18 | 0x68 => Some(&[0x01]),
        0x09 | 0x14 | 0x1A | 0x2F => Some(&[0x08]),
        0x2A => Some(&[0x30]),
        0x20 => Some(&[]),
        _ => None,
    }
}

/// A value without octets restores the default.
fn is_accepted(id: u8, value: &[u8]) -> bool {
    match (id, value) {
        (_, []) => default_of(id).is_some(),
        (0x20, value) => value.len() <= 15,
        (0x08 | 0x11 | 0x19 | 0x28, [octet]) => *octet <= 1,
        (0x18, [octet]) => [1, 2].contains(octet),
        (0x21, [octet]) => *octet <= 3,
        (0x68, [octet]) => *octet <= 6 || *octet == 0x20 || *octet >= 0x80 && *octet < 0xFF,
        (0x09 | 0x10 | 0x13 | 0x14 | 0x1A | 0x2A | 0x2F, [_]) => true,
        _ => false,
    }
}

/// The parameters that a set names, each with its value.
fn entries(asked: &[u8]) -> Result<Vec<(u8, &[u8])>, String> {
    let cut_short = || format!("a list cut short is answered with another: {asked:02X?}");
    let mut at = 1;
    let mut entries = Vec::new();
    for _ in 0..*asked.first().ok_or_else(cut_short)? {
        let length = usize::from(*asked.get(at + 1).ok_or_else(cut_short)?);
        entries.push((asked[at], asked.get(at + 2..at + 2 + length).ok_or_else(cut_short)?));
        at += 2 + length;
    }
    Ok(entries)
}

/// What was set and not restored since.
#[derive(Clone, Debug, Default)]
pub(super) struct Diary(BTreeMap<u8, Vec<u8>>);

impl Diary {
    fn value(&self, id: u8) -> Option<&[u8]> {
        let default = default_of(id)?;
        Some(self.0.get(&id).map_or(default, Vec::as_slice))
    }

    /// A set was answered. A status alone says that nothing was set; a list has the IDs that
    /// were not accepted, in the order given.
    fn note_set(&mut self, asked: &[u8], answered: &[u8]) -> Result<(), String> {
        if answered.len() == 1 && answered[0] != OK {
            return Ok(());
        }
        let entries = entries(asked)?;
        let (accepted, invalid): (Vec<_>, Vec<_>) =
            entries.into_iter().partition(|(id, value)| is_accepted(*id, value));
        let status = if invalid.is_empty() { OK } else { INVALID_PARAM };
        let ids = invalid.iter().map(|(id, _)| *id);
        let due: Vec<u8> = [status, invalid.len() as u8].into_iter().chain(ids).collect();
        if answered != due {
            return Err(format!("set {asked:02X?} answered {answered:02X?}, where {due:02X?} was due"));
        }
        for (id, value) in accepted {
            match value {
                [] => drop(self.0.remove(&id)),
                _ => drop(self.0.insert(id, value.to_vec())),
            }
        }
        Ok(())
    }

    /// An OK response to a get has the values of this diary, in the order asked.
    fn check_get(&self, asked: &[u8], answered: &[u8]) -> Result<(), String> {
        if answered.first() != Some(&OK) {
            return Ok(());
        }
        let ids = asked.split_first().and_then(|(count, rest)| rest.get(..usize::from(*count)));
        let ids = ids.ok_or_else(|| format!("OK to a get cut short: {asked:02X?}"))?;
        let mut due = vec![OK, ids.len() as u8];
        for id in ids {
            let value =
                self.value(*id).ok_or_else(|| format!("OK to a get of {id:02X}, which is not known"))?;
            due.extend([*id, value.len() as u8]);
            due.extend_from_slice(value);
        }
        if answered == due {
            Ok(())
        } else {
            Err(format!("get {asked:02X?} answered {answered:02X?}, where {due:02X?} was due"))
        }
    }
}

/// Whether a command's packet, or its response's, is of a set or a get.
fn is_of_config(octets: &[u8], message_type: u8) -> bool {
    octets[0] & 0xEF == message_type << 5 && [2, 3].contains(&octets[1])
}

impl Observer {
    /// Whether the call moves a packet of a set or a get, or of the response to one.
    pub(super) fn moves_config(&self, call: &Call) -> bool {
        match call {
            Call::Command { gid, oid, .. } => *gid == 0 && [2, 3].contains(oid),
            Call::Down => self.down_wire.front().is_some_and(|octets| is_of_config(octets, 1)),
            Call::Up => self.up_wire.front().is_some_and(|octets| is_of_config(octets, 2)),
            _ => false,
        }
    }

    /// What the response to the last command says of values.
    pub(super) fn note_response(&mut self, octets: &[u8]) -> Result<(), String> {
        let seen = see_packet(octets)?;
        if (seen.message_type, seen.id) != (2, 0) || ![0, 2, 3].contains(&seen.second) {
            return Ok(());
        }
        let command = self.command.as_ref().ok_or("a response to no command")?;
        if (command.gid, command.oid) != (seen.id, seen.second) {
            return Err(format!("a response {octets:02X?} to another command"));
        }
        match seen.second {
            0 if seen.payload == [OK] && command.payload.first() == Some(&1) => self.diary = Diary::default(),
            2 => self.diary.note_set(&command.payload, seen.payload)?,
            3 => self.diary.check_get(&command.payload, seen.payload)?,
            _ => {}
        }
        Ok(())
    }
}
