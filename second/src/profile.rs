//! The profile: what the controller offers (document 01, "Profile, record and
//! area"), with a pair for each connection (document 02, item 4).

use crate::connection::{FIRST_DYNAMIC, STATIC_RF};

/// Octets of a profile: with one pair for the dynamic connections, and with one for each.
pub const SHORT_PROFILE: usize = 5;
pub const LONG_PROFILE: usize = 11;

/// Credits octet of a connection without flow control.
pub const NO_FLOW_CONTROL: u8 = 255;
/// Most credits a connection is opened with.
pub const MOST_CREDITS: u8 = 8;
/// Least control payload, and the host's before it knows better.
pub const LEAST_CONTROL_PAYLOAD: u8 = 32;

/// What a connection is opened with: the payload of its packets and the grant.
#[derive(Clone, Copy, Debug, PartialEq, Eq)]
pub struct Terms {
    pub payload: u8,
    pub credits: u8,
}

impl Terms {
    /// None outside document 01's limits.
    pub fn new(payload: u8, credits: u8) -> Option<Terms> {
        let fits = payload >= 1 && ((1..=MOST_CREDITS).contains(&credits) || credits == NO_FLOW_CONTROL);
        fits.then_some(Terms { payload, credits })
    }

    pub fn flow_controlled(&self) -> bool {
        self.credits != NO_FLOW_CONTROL
    }
}

#[derive(Clone, Copy, Debug, PartialEq, Eq)]
pub struct Profile {
    pub control_payload: u8,
    /// Of 2, 3, 4 and 5.
    dynamic: [Terms; 4],
    static_rf: Terms,
}

impl Profile {
    /// Reads either form. The long one is control payload, payload and credits of each of
    /// 2, 3, 4 and 5, payload and credits of the static RF connection. None for another
    /// number of octets, or for one of them outside its limits.
    pub fn read(octets: &[u8]) -> Option<Profile> {
        let octets = spelled_out(octets)?;
        if octets[0] < LEAST_CONTROL_PAYLOAD {
            return None;
        }
        let terms_at = |place: usize| Terms::new(octets[place], octets[place + 1]);
        Some(Profile {
            control_payload: octets[0],
            dynamic: [terms_at(1)?, terms_at(3)?, terms_at(5)?, terms_at(7)?],
            static_rf: terms_at(9)?,
        })
    }

    /// What the controller opens a connection with.
    pub fn terms_of(&self, conn: u8) -> Terms {
        if conn == STATIC_RF {
            self.static_rf
        } else {
            self.dynamic[usize::from(conn - FIRST_DYNAMIC)]
        }
    }
}

/// A profile of either form in the long one: five octets mean four equal pairs.
fn spelled_out(octets: &[u8]) -> Option<[u8; LONG_PROFILE]> {
    match *octets {
        [control, p, c, static_payload, static_credits] => {
            Some([control, p, c, p, c, p, c, p, c, static_payload, static_credits])
        }
        _ => octets.try_into().ok(),
    }
}

#[cfg(test)]
mod tests {
    use super::*;

    /// Every pair another one.
    const UNLIKE: [u8; LONG_PROFILE] = [32, 1, 1, 255, 255, 4, 2, 100, 8, 3, 5];

    fn taken(octets: &[u8]) -> bool {
        Profile::read(octets).is_some()
    }

    /// Whether an octet at a place of a profile is inside its limits: payloads stand at
    /// odd places, credits at even ones.
    fn inside(place: usize, octet: u8) -> bool {
        match place {
            0 => octet >= 32,
            place if place % 2 == 1 => octet >= 1,
            _ => (1..=8).contains(&octet) || octet == 255,
        }
    }

    #[test]
    fn limits_of_each_octet() {
        for profile in [&[32, 4, 2, 4, 1][..], &UNLIKE] {
            for place in 0..profile.len() {
                for octet in 0..=255 {
                    let mut profile = profile.to_vec();
                    profile[place] = octet;
                    assert_eq!(taken(&profile), inside(place, octet), "{profile:?}");
                }
            }
        }
    }

    #[test]
    fn five_octets_or_eleven() {
        for count in 0..=300 {
            let profile = [&[32][..], &[1; 300]].concat();
            assert_eq!(taken(&profile[..count]), count == 5 || count == 11, "{count}");
        }
    }

    #[test]
    fn five_octets_mean_four_equal_pairs() {
        for [payload, credits] in [[1, 1], [4, 2], [255, 255]] {
            let pair = [payload, credits];
            let long = [&[64][..], &pair, &pair, &pair, &pair, &[7, 3]].concat();
            let short = Profile::read(&[64, payload, credits, 7, 3]);
            assert!(short.is_some());
            assert_eq!(short, Profile::read(&long));
        }
    }

    #[test]
    fn each_connection_has_the_pair_at_its_place() {
        let profile = Profile::read(&UNLIKE).unwrap();
        for (conn, payload, credits) in [(2, 1, 1), (3, 255, 255), (4, 4, 2), (5, 100, 8), (0, 3, 5)] {
            assert_eq!(profile.terms_of(conn), Terms { payload, credits }, "{conn}");
        }
    }
}
