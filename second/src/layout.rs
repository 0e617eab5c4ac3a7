//! The layouts of control messages: how the controller writes each, and which
//! contents the host knows as written here.
//!
//! Decision on contents never written: what the controller writes is exactly
//! known, so the host reads exactly that and anything else has no effect. The
//! readers below answer None for such contents.

use crate::config;
use crate::connection::{is_dynamic, place_of, CONN_IDS};
use crate::packet::{self, MessageType, MOST_CONTROL_MESSAGE};
use crate::profile::{Terms, LEAST_CONTROL_PAYLOAD, MOST_CREDITS};

// GIDs and OIDs (003, Table 139).
pub const CORE: u8 = 0;
pub const CORE_RESET: u8 = 0;
pub const CORE_INIT: u8 = 1;
pub const CORE_SET_CONFIG: u8 = 2;
pub const CORE_GET_CONFIG: u8 = 3;
pub const CORE_CONN_CREATE: u8 = 4;
pub const CORE_CONN_CLOSE: u8 = 5;
pub const CORE_CONN_CREDITS: u8 = 6;
pub const CORE_GENERIC_ERROR: u8 = 7;
pub const RF: u8 = 1;
pub const RF_DISCOVER: u8 = 3;
pub const RF_DISCOVER_SELECT: u8 = 4;
pub const RF_INTF_ACTIVATED: u8 = 5;
pub const RF_DEACTIVATE: u8 = 6;

// Status codes (003, Table 129).
pub const STATUS_OK: u8 = 0x00;
pub const STATUS_REJECTED: u8 = 0x01;
pub const STATUS_SYNTAX_ERROR: u8 = 0x05;
pub const STATUS_SEMANTIC_ERROR: u8 = 0x06;
pub const STATUS_INVALID_PARAM: u8 = 0x09;
pub const STATUS_MESSAGE_SIZE_EXCEEDED: u8 = 0x0A;
pub const DISCOVERY_ALREADY_STARTED: u8 = 0xA0;
pub const DISCOVERY_TARGET_ACTIVATION_FAILED: u8 = 0xA1;

/// The reset type that restores the configuration (003, Table 5); 0 keeps it.
pub const RESET_CONFIGURATION: u8 = 1;

// Deactivation types (003, Table 80) and reasons (Table 81).
pub const DEACTIVATE_IDLE: u8 = 0;
pub const DEACTIVATE_SLEEP: u8 = 1;
pub const DEACTIVATE_SLEEP_AF: u8 = 2;
pub const DEACTIVATE_DISCOVERY: u8 = 3;
pub const REASON_DH_REQUEST: u8 = 0;
pub const REASON_ENDPOINT_REQUEST: u8 = 1;
pub const REASON_RF_LINK_LOSS: u8 = 2;

/// Frame RF interface (003, Table 134), the only one here.
pub const FRAME_INTERFACE: u8 = 1;
/// Reset trigger "RESET command received" and the version NCI 2.0.
const TRIGGER_COMMAND: u8 = 0x02;
const NCI_2_0: u8 = 0x20;

// RF technology and mode (003, Table 131).
pub const MODE_LISTEN_B: u8 = 0x81;
pub const MODE_LISTEN_F: u8 = 0x82;

pub fn is_poll_mode(mode: u8) -> bool {
    mode <= 3 || mode == 6
}

pub fn is_listen_mode(mode: u8) -> bool {
    (0x80..=0x83).contains(&mode)
}

/// RF Discovery IDs 0 and 255 are RFU.
pub fn is_discovery_id(id: u8) -> bool {
    (1..=254).contains(&id)
}

/// Most technology parameter octets in found and activation.
pub const MOST_PARAMETERS: usize = 32;

// Lists of parameters (003, Tables 11 and 12).

/// A parameter's ID and its value.
pub type Setting<'a> = (u8, &'a [u8]);

/// The parameters of a list, as many as its count says, and the octets past it; none if it is
/// cut short.
pub fn read_settings(octets: &[u8]) -> Option<(Vec<Setting<'_>>, &[u8])> {
    let (count, mut rest) = octets.split_first()?;
    let mut settings = Vec::new();
    for _ in 0..*count {
        let [id, length, behind @ ..] = rest else {
            return None;
        };
        let (value, past) = behind.split_at_checked(usize::from(*length))?;
        settings.push((*id, value));
        rest = past;
    }
    Some((settings, rest))
}

/// The IDs of a list of IDs; none if it is cut short.
pub fn read_ids(octets: &[u8]) -> Option<&[u8]> {
    let (count, rest) = octets.split_first()?;
    rest.get(..usize::from(*count))
}

// What the controller writes.

/// A response of a status alone: every one that is not OK, but for lists of invalid
/// parameters, and the OK ones that state nothing more.
pub fn write_status(gid: u8, oid: u8, status: u8) -> Vec<u8> {
    packet::write_control(MessageType::Response, gid, oid, &[status])
}

pub fn write_reset_ntf(reset_type: u8) -> Vec<u8> {
    notification(CORE, CORE_RESET, &[TRIGGER_COMMAND, reset_type, NCI_2_0, 0, 0])
}

/// Decision on the INIT response: document 01's sixteen octets, the NFC-V frame
/// size among them 00 00.
fn init_rsp_payload(control_payload: u8) -> [u8; 16] {
    [STATUS_OK, 0, 0, 0, 0, 4, 0, 0, control_payload, 0, 0, 0, 0, 1, FRAME_INTERFACE, 0]
}

pub fn write_init_rsp(control_payload: u8) -> Vec<u8> {
    packet::write_control(MessageType::Response, CORE, CORE_INIT, &init_rsp_payload(control_payload))
}

/// The IDs of the parameters that were not set, in the order given.
pub fn write_set_config_rsp(invalid: &[u8]) -> Vec<u8> {
    let status = if invalid.is_empty() { STATUS_OK } else { STATUS_INVALID_PARAM };
    let payload = [&[status, invalid.len() as u8], invalid].concat();
    packet::write_control(MessageType::Response, CORE, CORE_SET_CONFIG, &payload)
}

/// Parameters with their values, or unknown ones without; none if that passes 255 octets.
pub fn write_get_config_rsp(status: u8, settings: &[Setting]) -> Option<Vec<u8>> {
    let mut payload = vec![status, settings.len() as u8];
    for (id, value) in settings {
        payload.extend([*id, value.len() as u8]);
        payload.extend_from_slice(value);
    }
    let fits = payload.len() <= MOST_CONTROL_MESSAGE;
    fits.then(|| packet::write_control(MessageType::Response, CORE, CORE_GET_CONFIG, &payload))
}

pub fn write_create_rsp(terms: Terms, conn: u8) -> Vec<u8> {
    let payload = [STATUS_OK, terms.payload, terms.credits, conn];
    packet::write_control(MessageType::Response, CORE, CORE_CONN_CREATE, &payload)
}

/// One entry (Conn ID, credits) for each connection owed.
pub fn write_credits_ntf(entries: &[(u8, u8)]) -> Vec<u8> {
    let mut payload = vec![entries.len() as u8];
    for (conn, credits) in entries {
        payload.extend([*conn, *credits]);
    }
    notification(CORE, CORE_CONN_CREDITS, &payload)
}

pub fn write_generic_error_ntf() -> Vec<u8> {
    notification(CORE, CORE_GENERIC_ERROR, &[DISCOVERY_TARGET_ACTIVATION_FAILED])
}

/// An endpoint as found or activated: what both notifications carry of it.
#[derive(Clone, Copy, Debug, PartialEq, Eq)]
pub struct Endpoint<'a> {
    pub id: u8,
    pub protocol: u8,
    pub mode: u8,
    pub parameters: &'a [u8],
}

pub fn write_discover_ntf(endpoint: &Endpoint, notification_type: u8) -> Vec<u8> {
    let mut payload = vec![endpoint.id, endpoint.protocol, endpoint.mode];
    payload.push(endpoint.parameters.len() as u8);
    payload.extend_from_slice(endpoint.parameters);
    payload.push(notification_type);
    notification(RF, RF_DISCOVER, &payload)
}

pub fn write_activated_ntf(endpoint: &Endpoint, terms: Terms) -> Vec<u8> {
    let mut payload = vec![endpoint.id, FRAME_INTERFACE, endpoint.protocol, endpoint.mode];
    payload.extend([terms.payload, terms.credits, endpoint.parameters.len() as u8]);
    payload.extend_from_slice(endpoint.parameters);
    payload.extend([endpoint.mode, 0, 0, 0]);
    notification(RF, RF_INTF_ACTIVATED, &payload)
}

pub fn write_deactivate_ntf(deactivation_type: u8, reason: u8) -> Vec<u8> {
    notification(RF, RF_DEACTIVATE, &[deactivation_type, reason])
}

fn notification(gid: u8, oid: u8, payload: &[u8]) -> Vec<u8> {
    packet::write_control(MessageType::Notification, gid, oid, payload)
}

// What the host reads.

/// A response with contents written here.
#[derive(Clone, Debug, PartialEq, Eq)]
pub enum Response {
    /// A status other than OK, alone.
    Refused,
    Reset,
    Init {
        control_payload: u8,
    },
    Created {
        conn: u8,
        terms: Terms,
    },
    Closed,
    /// A list that answers a set or a get, OK or not: the host keeps no configuration.
    Config,
    /// OK to an RF command: the host keeps no RF state.
    RfDone,
}

pub fn read_response(gid: u8, oid: u8, payload: &[u8]) -> Option<Response> {
    if let [status] = payload {
        if *status != STATUS_OK {
            return Some(Response::Refused);
        }
    }
    match (gid, oid, payload) {
        (CORE, CORE_RESET, [STATUS_OK]) => Some(Response::Reset),
        (CORE, CORE_INIT, payload) => read_init_rsp(payload),
        (CORE, CORE_SET_CONFIG, payload) => is_written_set(payload).then_some(Response::Config),
        (CORE, CORE_GET_CONFIG, payload) => is_written_get(payload).then_some(Response::Config),
        (CORE, CORE_CONN_CREATE, payload) => read_create_rsp(payload),
        (CORE, CORE_CONN_CLOSE, [STATUS_OK]) => Some(Response::Closed),
        (RF, RF_DISCOVER | RF_DISCOVER_SELECT | RF_DEACTIVATE, [STATUS_OK]) => Some(Response::RfDone),
        _ => None,
    }
}

fn read_init_rsp(payload: &[u8]) -> Option<Response> {
    let control_payload = *payload.get(8)?;
    let written = control_payload >= LEAST_CONTROL_PAYLOAD && payload == init_rsp_payload(control_payload);
    written.then_some(Response::Init { control_payload })
}

/// As many IDs as a set can have parameters in 255 octets, each two octets at least. What is
/// repeated in a response is not compared (decision on configuration).
const MOST_SETTINGS: u8 = 127;

fn is_written_set(payload: &[u8]) -> bool {
    match payload {
        [STATUS_OK, 0] => true,
        [STATUS_INVALID_PARAM, count @ 1..=MOST_SETTINGS, ids @ ..] => ids.len() == usize::from(*count),
        _ => false,
    }
}

/// Known parameters, each with a value that it can have, or unknown ones without.
fn is_written_get(payload: &[u8]) -> bool {
    let Some((status, list)) = payload.split_first() else {
        return false;
    };
    let Some((settings, [])) = read_settings(list) else {
        return false;
    };
    let has_value = |(id, value): &Setting| config::parameter(*id).is_some_and(|known| known.accepts(value));
    let is_unknown = |(id, value): &Setting| !config::is_known(*id) && value.is_empty();
    match *status {
        STATUS_OK => settings.iter().all(has_value),
        STATUS_INVALID_PARAM => !settings.is_empty() && settings.iter().all(is_unknown),
        _ => false,
    }
}

/// Four octets and no other number.
pub fn read_create_rsp(payload: &[u8]) -> Option<Response> {
    let [STATUS_OK, payload, credits, conn] = *payload else {
        return None;
    };
    let terms = Terms::new(payload, credits)?;
    is_dynamic(conn).then_some(Response::Created { conn, terms })
}

/// A notification with contents written here. Those that change nothing at the
/// host (reset, generic error, discover) have no case: no effect either way.
#[derive(Clone, Debug, PartialEq, Eq)]
pub enum Notification {
    Credits(Vec<(u8, u8)>),
    Activated(Terms),
    Deactivated,
}

pub fn read_notification(gid: u8, oid: u8, payload: &[u8]) -> Option<Notification> {
    match (gid, oid) {
        (CORE, CORE_CONN_CREDITS) => read_credits_ntf(payload).map(Notification::Credits),
        (RF, RF_INTF_ACTIVATED) => read_activated_ntf(payload).map(Notification::Activated),
        (RF, RF_DEACTIVATE) => is_written_deactivation(payload).then_some(Notification::Deactivated),
        _ => None,
    }
}

/// 1-5 entries at the exact length, Conn IDs ascending among 0 and 2-5, 1-8
/// credits each.
pub fn read_credits_ntf(payload: &[u8]) -> Option<Vec<(u8, u8)>> {
    let (count, rest) = payload.split_first()?;
    let count = usize::from(*count);
    if !(1..=CONN_IDS.len()).contains(&count) || rest.len() != 2 * count {
        return None;
    }
    let entries: Vec<(u8, u8)> = rest.chunks_exact(2).map(|entry| (entry[0], entry[1])).collect();
    let ascending = entries.windows(2).all(|pair| pair[0].0 < pair[1].0);
    let inside =
        |(conn, credits): &(u8, u8)| place_of(*conn).is_some() && (1..=MOST_CREDITS).contains(credits);
    (ascending && entries.iter().all(inside)).then_some(entries)
}

pub fn read_activated_ntf(payload: &[u8]) -> Option<Terms> {
    let [id, FRAME_INTERFACE, _protocol, mode, payload, credits, count, rest @ ..] = payload else {
        return None;
    };
    let count = usize::from(*count);
    if count > MOST_PARAMETERS || rest.get(count..)? != [*mode, 0, 0, 0] {
        return None;
    }
    let written = is_discovery_id(*id) && (is_poll_mode(*mode) || is_listen_mode(*mode));
    if written {
        Terms::new(*payload, *credits)
    } else {
        None
    }
}

/// The pairs of type and reason that the controller writes: any type with reason
/// 00 after a command, and the three of the air.
fn is_written_deactivation(payload: &[u8]) -> bool {
    matches!(
        payload,
        [DEACTIVATE_IDLE..=DEACTIVATE_DISCOVERY, REASON_DH_REQUEST]
            | [DEACTIVATE_SLEEP, REASON_ENDPOINT_REQUEST]
            | [DEACTIVATE_DISCOVERY, REASON_RF_LINK_LOSS | REASON_ENDPOINT_REQUEST]
    )
}

#[cfg(test)]
mod tests {
    use super::*;

    const TERMS: Terms = Terms { payload: 4, credits: 2 };

    #[test]
    fn every_written_response_reads_back() {
        let payload = |octets: Vec<u8>| octets[3..].to_vec();
        assert_eq!(read_response(0, 0, &[0]), Some(Response::Reset));
        for control_payload in 32..=255 {
            let written = payload(write_init_rsp(control_payload));
            assert_eq!(read_response(0, 1, &written), Some(Response::Init { control_payload }));
        }
        for conn in 2..=5 {
            let written = payload(write_create_rsp(TERMS, conn));
            assert_eq!(read_response(0, 4, &written), Some(Response::Created { conn, terms: TERMS }));
        }
        assert_eq!(read_response(0, 5, &[0]), Some(Response::Closed));
        for invalid in [&[][..], &[0x12], &[0x08, 0xFF, 0x08], &[0x12; 127]] {
            let written = payload(write_set_config_rsp(invalid));
            assert_eq!(read_response(0, 2, &written), Some(Response::Config));
        }
        let values: [Setting; 4] = [(0x08, &[1]), (0x20, &[]), (0x20, &[9; 15]), (0x68, &[0xFE])];
        let unknown: [Setting; 2] = [(0x12, &[]), (0x12, &[])];
        for (status, settings) in [(0, &values[..]), (0, &[]), (9, &unknown)] {
            let written = payload(write_get_config_rsp(status, settings).unwrap());
            assert_eq!(read_response(0, 3, &written), Some(Response::Config));
        }
        for oid in [3, 4, 6] {
            assert_eq!(read_response(1, oid, &[0]), Some(Response::RfDone));
        }
    }

    #[test]
    fn a_status_other_than_ok_is_written_alone() {
        let known = [(0, 0), (0, 1), (0, 2), (0, 3), (0, 4), (0, 5), (1, 3), (1, 4), (1, 6)];
        for (gid, oid) in known.into_iter().chain([(0, 0x3F), (9, 9)]) {
            assert_eq!(read_response(gid, oid, &[5]), Some(Response::Refused));
            assert_eq!(read_response(gid, oid, &[5, 0]), None);
            assert_eq!(read_response(gid, oid, &[]), None);
        }
        assert_eq!(read_response(0, 0x3F, &[0]), None);
    }

    #[test]
    fn lists_are_as_long_as_they_say() {
        let two: Vec<Setting> = vec![(0x08, &[1]), (0x20, &[])];
        let octets = [2, 0x08, 1, 1, 0x20, 0, 7, 7];
        assert_eq!(read_settings(&octets), Some((two, &octets[6..])));
        assert_eq!(read_settings(&[0, 9]), Some((vec![], &[9][..])));
        assert_eq!(read_ids(&[2, 8, 9, 7]), Some(&[8, 9][..]));
        assert_eq!(read_ids(&[0]), Some(&[][..]));
        for length in 0..6 {
            assert_eq!(read_settings(&octets[..length]), None, "{length}");
        }
        for cut in [&[][..], &[1], &[3, 8, 9]] {
            assert_eq!(read_ids(cut), None);
        }
    }

    #[test]
    fn a_set_response_is_read_at_its_exact_layout() {
        let many = |count: u8, ids: usize| [vec![9, count], vec![0x12; ids]].concat();
        assert_eq!(read_response(0, 2, &many(127, 127)), Some(Response::Config));
        for never in [many(128, 128), many(253, 253), many(127, 126), many(2, 3), many(0, 0), many(0, 1)] {
            assert_eq!(read_response(0, 2, &never), None, "{never:02X?}");
        }
        for never in [&[][..], &[0], &[0, 1, 8], &[0, 0, 0], &[0, 1], &[5, 0], &[0x0A, 1, 8], &[9, 1, 8, 0]] {
            assert_eq!(read_response(0, 2, never), None, "{never:02X?}");
        }
    }

    #[test]
    fn a_get_response_is_read_at_its_exact_layout() {
        let many = |status: u8, entry: &[u8], count: usize| {
            [vec![status, count as u8], entry.repeat(count)].concat()
        };
        for written in [many(0, &[8, 1, 1], 84), many(9, &[0x12, 0], 126), many(0, &[0x20, 0], 126)] {
            assert_eq!(read_response(0, 3, &written), Some(Response::Config));
            assert_eq!(read_response(0, 3, &written[..written.len() - 1]), None);
            assert_eq!(read_response(0, 3, &[&written[..], &[0]].concat()), None);
        }
        for never in [
            &[0][..],
            &[9, 0],
            &[9, 1, 0x08, 0],
            &[9, 1, 0x12, 1, 0],
            &[9, 2, 0x12, 0, 0x20, 0],
            &[0, 1, 0x12, 0],
            &[0, 1, 0x08, 0],
            &[0, 1, 0x08, 1, 2],
            &[0, 1, 0x08, 2, 0, 0],
            &[0, 1, 0x18, 1, 0],
            &[0, 1, 0x68, 1, 0x07],
            &[0, 2, 0x08, 1, 0],
            &[0, 0, 0x08, 1, 0],
            &[0, 1, 0x08, 1, 0, 0],
            &[5, 1, 0x08, 1, 0],
            &[0x0A, 1, 0x08, 1, 0],
        ] {
            assert_eq!(read_response(0, 3, never), None, "{never:02X?}");
        }
        let long = |length: u8| [vec![0, 1, 0x20, length], vec![7; length.into()]].concat();
        assert_eq!(read_response(0, 3, &long(15)), Some(Response::Config));
        assert_eq!(read_response(0, 3, &long(16)), None);
    }

    #[test]
    fn a_get_response_over_255_octets_is_none() {
        for (setting, most) in [((8, &[1][..]), 84), ((0x12, &[]), 126), ((0x20, &[7; 15]), 14)] {
            assert!(write_get_config_rsp(0, &vec![setting; most]).is_some());
            assert_eq!(write_get_config_rsp(0, &vec![setting; most + 1]), None);
        }
    }

    #[test]
    fn a_create_response_outside_its_limits_was_never_written() {
        for payload in [
            &[0, 4, 2][..],
            &[0, 4, 2, 2, 0],
            &[0, 0, 2, 2],
            &[0, 4, 0, 2],
            &[0, 4, 9, 2],
            &[0, 4, 254, 2],
            &[0, 4, 2, 0],
            &[0, 4, 2, 1],
            &[0, 4, 2, 6],
            &[0, 4, 2, 0x12],
            &[0],
        ] {
            assert_eq!(read_response(0, 4, payload), None, "{payload:02X?}");
        }
    }

    #[test]
    fn an_init_response_with_any_other_octet_was_never_written() {
        let written = init_rsp_payload(32);
        for place in 0..16 {
            let mut other = written;
            other[place] ^= 0x80;
            let read = read_response(0, 1, &other);
            assert_eq!(read.is_some(), place == 8, "octet {place}");
        }
        let mut small = written;
        small[8] = 31;
        assert_eq!(read_response(0, 1, &small), None);
        assert_eq!(read_response(0, 1, &written[..15]), None);
        assert_eq!(read_response(0, 1, &[&written[..], &[0]].concat()), None);
    }

    #[test]
    fn credit_notices_are_read_at_their_exact_layout() {
        assert_eq!(read_credits_ntf(&[1, 2, 2]), Some(vec![(2, 2)]));
        let five = [5, 0, 1, 2, 2, 3, 3, 4, 4, 5, 8];
        assert_eq!(read_credits_ntf(&five).map(|entries| entries.len()), Some(5));
        for payload in [
            &[][..],
            &[0],
            &[1],
            &[1, 2],
            &[1, 2, 2, 0],
            &[2, 2, 2],
            &[1, 1, 1],
            &[1, 6, 1],
            &[1, 0x12, 1],
            &[1, 2, 0],
            &[1, 2, 9],
            &[2, 3, 1, 2, 1],
            &[2, 2, 1, 2, 1],
            &[6, 0, 1, 2, 1, 3, 1, 4, 1, 5, 1, 6, 1],
        ] {
            assert_eq!(read_credits_ntf(payload), None, "{payload:02X?}");
        }
    }

    #[test]
    fn activations_are_read_at_their_exact_layout() {
        let endpoint = Endpoint { id: 1, protocol: 0xFE, mode: 0x82, parameters: &[9; 32] };
        let written = write_activated_ntf(&endpoint, TERMS)[3..].to_vec();
        assert_eq!(read_activated_ntf(&written), Some(TERMS));
        for (place, octet) in [(0, 0), (0, 255), (1, 0), (1, 2), (3, 4), (3, 0x84), (4, 0), (5, 0), (5, 9)] {
            let mut other = written.clone();
            other[place] = octet;
            assert_eq!(read_activated_ntf(&other), None, "octet {place}");
        }
        for place in [6, 39, 40, 41, 42] {
            let mut other = written.clone();
            other[place] += 1;
            assert_eq!(read_activated_ntf(&other), None, "octet {place}");
        }
        for place in [2, 7, 38] {
            let mut other = written.clone();
            other[place] += 1;
            assert_eq!(read_activated_ntf(&other), Some(TERMS), "octet {place}");
        }
        assert_eq!(read_activated_ntf(&written[..42]), None);
        assert_eq!(read_activated_ntf(&[&written[..], &[0]].concat()), None);
        let many = Endpoint { parameters: &[9; 33], ..endpoint };
        assert_eq!(read_activated_ntf(&write_activated_ntf(&many, TERMS)[3..]), None);
    }

    #[test]
    fn seven_deactivations_are_written() {
        let written: Vec<(u8, u8)> = (0..=255)
            .flat_map(|kind| (0..=255).map(move |reason| (kind, reason)))
            .filter(|(kind, reason)| is_written_deactivation(&[*kind, *reason]))
            .collect();
        assert_eq!(written, [(0, 0), (1, 0), (1, 1), (2, 0), (3, 0), (3, 1), (3, 2)]);
        assert!(!is_written_deactivation(&[0]));
        assert!(!is_written_deactivation(&[0, 0, 0]));
    }
}
