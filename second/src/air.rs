//! What happens on the air: the argument of the call air and its limits
//! (document 01, "The air").

use crate::layout::{is_discovery_id, is_listen_mode, is_poll_mode, Endpoint, MOST_PARAMETERS};
use crate::packet::MOST_DATA_MESSAGE;

/// RF_DISCOVER_NTF type "more to follow"; 0 and 1 end a series.
pub const FOUND_MORE: u8 = 2;

#[derive(Clone, Copy, Debug, PartialEq, Eq)]
pub enum AirEvent<'a> {
    Found { endpoint: Endpoint<'a>, notification_type: u8 },
    PollActivation(Endpoint<'a>),
    ListenActivation(Endpoint<'a>),
    TargetFailed,
    EndpointSleeps,
    LinkLost,
    EndpointReleases,
    EndpointMessage(&'a [u8]),
}

impl<'a> AirEvent<'a> {
    /// Kind first, then the fields in document 01's order. None is refusal 3: a
    /// kind outside 1-8, octets missing or to spare, a field outside its limit.
    pub fn read(octets: &'a [u8]) -> Option<AirEvent<'a>> {
        let (kind, fields) = octets.split_first()?;
        let event = match (kind, fields) {
            (1, fields) => read_found(fields)?,
            (2, fields) => AirEvent::PollActivation(read_endpoint(fields, is_poll_mode)?),
            (3, fields) => AirEvent::ListenActivation(read_endpoint(fields, is_listen_mode)?),
            (4, []) => AirEvent::TargetFailed,
            (5, []) => AirEvent::EndpointSleeps,
            (6, []) => AirEvent::LinkLost,
            (7, []) => AirEvent::EndpointReleases,
            (8, message) if message.len() <= MOST_DATA_MESSAGE => AirEvent::EndpointMessage(message),
            _ => return None,
        };
        Some(event)
    }

    /// Kinds 1-7 put one notification up; a message of the endpoint only waits.
    pub fn needs_slot(&self) -> bool {
        !matches!(self, AirEvent::EndpointMessage(_))
    }

    pub fn is_activation(&self) -> bool {
        matches!(self, AirEvent::PollActivation(_) | AirEvent::ListenActivation(_))
    }
}

/// In the argument the notification type stands before the parameters; on the
/// wire it comes last.
fn read_found(fields: &[u8]) -> Option<AirEvent<'_>> {
    let [id, protocol, mode, notification_type, parameters @ ..] = fields else {
        return None;
    };
    let endpoint = Endpoint { id: *id, protocol: *protocol, mode: *mode, parameters };
    let fits = endpoint_fits(&endpoint, is_poll_mode) && *notification_type <= FOUND_MORE;
    fits.then_some(AirEvent::Found { endpoint, notification_type: *notification_type })
}

fn read_endpoint(fields: &[u8], is_mode: fn(u8) -> bool) -> Option<Endpoint<'_>> {
    let [id, protocol, mode, parameters @ ..] = fields else {
        return None;
    };
    let endpoint = Endpoint { id: *id, protocol: *protocol, mode: *mode, parameters };
    endpoint_fits(&endpoint, is_mode).then_some(endpoint)
}

fn endpoint_fits(endpoint: &Endpoint, is_mode: fn(u8) -> bool) -> bool {
    is_discovery_id(endpoint.id) && is_mode(endpoint.mode) && endpoint.parameters.len() <= MOST_PARAMETERS
}

#[cfg(test)]
mod tests {
    use super::*;

    fn fits(octets: &[u8]) -> bool {
        AirEvent::read(octets).is_some()
    }

    #[test]
    fn kinds_and_octets_missing_or_to_spare() {
        assert!(!fits(&[]));
        for kind in [0, 9, 255] {
            assert!(!fits(&[kind]));
            assert!(!fits(&[kind, 1, 4, 0, 2]));
        }
        for kind in 4..=7 {
            assert!(fits(&[kind]));
            assert!(!fits(&[kind, 0]));
        }
        assert!(fits(&[1, 1, 4, 0, 2]));
        assert!(!fits(&[1, 1, 4, 0]));
        assert!(fits(&[2, 1, 4, 0]));
        assert!(!fits(&[2, 1, 4]));
        assert!(fits(&[3, 1, 4, 0x80]));
        assert!(!fits(&[3, 1, 4]));
        assert!(fits(&[8]));
    }

    #[test]
    fn limits_of_each_field() {
        for octet in 0..=255u8 {
            let id = (1..=254).contains(&octet);
            let poll = [0, 1, 2, 3, 6].contains(&octet);
            let listen = [0x80, 0x81, 0x82, 0x83].contains(&octet);
            assert_eq!(fits(&[1, octet, 4, 0, 2]), id);
            assert_eq!(fits(&[2, octet, 4, 0]), id);
            assert_eq!(fits(&[3, octet, 4, 0x80]), id);
            assert!(fits(&[1, 1, octet, 0, 2]));
            assert_eq!(fits(&[1, 1, 4, octet, 2]), poll);
            assert_eq!(fits(&[2, 1, 4, octet]), poll);
            assert_eq!(fits(&[3, 1, 4, octet]), listen);
            assert_eq!(fits(&[1, 1, 4, 0, octet]), octet <= 2);
        }
    }

    #[test]
    fn thirty_two_parameters_and_1024_message_octets_fit_and_one_more_does_not() {
        for head in [&[1, 1, 4, 0, 2][..], &[2, 1, 4, 0], &[3, 1, 4, 0x80]] {
            assert!(fits(&[head, &[0xEE; 32]].concat()));
            assert!(!fits(&[head, &[0xEE; 33]].concat()));
        }
        assert!(fits(&[&[8][..], &[0xEE; 1024]].concat()));
        assert!(!fits(&[&[8][..], &[0xEE; 1025]].concat()));
    }
}
