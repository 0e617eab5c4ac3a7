//! The configuration parameters that this controller has (document 02, item 5): those of 003,
//! Tables 24 to 32, with a fixed length or a stated greatest length up to 15 octets, and their
//! tags of Table 138. L and a number is a line of 003.
//!
//! Left out are PB_ATTRIB_PARAM1 (12), which is read-only (L2022), and PN_ATR_REQ_GEN_BYTES
//! (29), which has no stated greatest length (L2071). A devices limit that the tables leave to
//! the controller is 8.

use std::ops::RangeInclusive;

/// A parameter: its tag, the octets that a value has, the value without a set, and what each
/// octet of a value may be.
#[derive(Debug)]
pub struct Parameter {
    pub id: u8,
    pub name: &'static str,
    pub lengths: RangeInclusive<usize>,
    pub default: &'static [u8],
    pub octets: &'static [RangeInclusive<u8>],
}

/// Every octet; bits that are RFU (Tables 26 and 30) are kept as given.
const ANY: &[RangeInclusive<u8>] = &[0x00..=0xFF];
/// The rest is RFU.
const NO_OR_YES: &[RangeInclusive<u8>] = &[0x00..=0x01];
/// Table 132, L5366-5380: 07-1F, 21-7F and FF are RFU.
const BIT_RATES: &[RangeInclusive<u8>] = &[0x00..=0x06, 0x20..=0x20, 0x80..=0xFE];

const fn one(
    id: u8,
    name: &'static str,
    default: &'static [u8; 1],
    octets: &'static [RangeInclusive<u8>],
) -> Parameter {
    Parameter { id, name, lengths: 1..=1, default, octets }
}

/// By ascending tag. Beside each the lines of its tag and of its length, values and default.
pub static PARAMETERS: [Parameter; 15] = [
    one(0x08, "PA_BAIL_OUT", &[0x00], NO_OR_YES), // L5461; Table 24, L2007-2009
    one(0x09, "PA_DEVICES_LIMIT", &[0x08], ANY),  // L5462; Table 24, L2010
    one(0x10, "PB_AFI", &[0x00], ANY),            // L5465; Table 25, L2018
    one(0x11, "PB_BAIL_OUT", &[0x00], NO_OR_YES), // L5466; Table 25, L2019-2021
    one(0x13, "PB_SENSB_REQ_PARAM", &[0x00], ANY), // L5468; Table 25, L2023; Table 26, L2034-2037
    one(0x14, "PB_DEVICES_LIMIT", &[0x08], ANY),  // L5469; Table 25, L2024
    one(0x18, "PF_BIT_RATE", &[0x01], &[0x01..=0x02]), // L5472; Table 27, L2045
    one(0x19, "PF_BAIL_OUT", &[0x00], NO_OR_YES), // L5473; Table 27, L2046-2048
    one(0x1A, "PF_DEVICES_LIMIT", &[0x08], ANY),  // L5474; Table 27, L2049
    // L5477; Table 28, L2057
    Parameter { id: 0x20, name: "PI_B_H_INFO", lengths: 0..=15, default: &[], octets: ANY },
    one(0x21, "PI_BIT_RATE", &[0x00], &[0x00..=0x03]), // L5478; Table 28, L2058
    one(0x28, "PN_NFC_DEP_PSL", &[0x00], NO_OR_YES),   // L5481; Table 29, L2068-2070
    one(0x2A, "PN_ATR_REQ_CONFIG", &[0x30], ANY),      // L5483; Table 29, L2072; Table 30, L2079-2080
    one(0x2F, "PV_DEVICES_LIMIT", &[0x08], ANY),       // L5495; Table 32, L2096
    one(0x68, "PACM_BIT_RATE", &[0x01], BIT_RATES),    // L5558; Table 31, L2088; Table 132
];

/// The place of a parameter in the table; none for an ID that is not known here.
fn place_of(id: u8) -> Option<usize> {
    PARAMETERS.iter().position(|parameter| parameter.id == id)
}

pub fn parameter(id: u8) -> Option<&'static Parameter> {
    Some(&PARAMETERS[place_of(id)?])
}

pub fn is_known(id: u8) -> bool {
    place_of(id).is_some()
}

impl Parameter {
    /// Whether the parameter can have this value.
    pub fn accepts(&self, value: &[u8]) -> bool {
        let fits = |octet: &u8| self.octets.iter().any(|range| range.contains(octet));
        self.lengths.contains(&value.len()) && value.iter().all(fits)
    }
}

/// What the controller keeps: a value of each parameter, by its place in the table.
#[derive(Clone, Debug, PartialEq, Eq)]
pub struct Values([Vec<u8>; PARAMETERS.len()]);

impl Values {
    pub fn defaults() -> Values {
        Values(std::array::from_fn(|place| PARAMETERS[place].default.to_vec()))
    }

    /// None for an ID that is not known here.
    pub fn of(&self, id: u8) -> Option<&[u8]> {
        Some(&self.0[place_of(id)?])
    }

    /// Whether the parameter is set; length 0 sets it to its default (L1461). An invalid one
    /// keeps its value.
    pub fn set(&mut self, id: u8, value: &[u8]) -> bool {
        let Some(place) = place_of(id) else {
            return false;
        };
        let parameter = &PARAMETERS[place];
        let value = if value.is_empty() { parameter.default } else { value };
        let accepted = parameter.accepts(value);
        if accepted {
            self.0[place] = value.to_vec();
        }
        accepted
    }
}

#[cfg(test)]
mod tests {
    use super::*;

    /// Octets that a value of one octet may be.
    fn accepted(id: u8) -> Vec<u8> {
        let parameter = parameter(id).unwrap();
        (0..=255).filter(|octet| parameter.accepts(&[*octet])).collect()
    }

    #[test]
    fn the_table_goes_by_ascending_tags_and_every_default_is_a_value() {
        let ids: Vec<u8> = PARAMETERS.iter().map(|parameter| parameter.id).collect();
        assert!(ids.is_sorted());
        assert_eq!((0..=255).filter(|id| is_known(*id)).collect::<Vec<u8>>(), ids);
        for parameter in &PARAMETERS {
            assert!(parameter.accepts(parameter.default), "{}", parameter.name);
            assert_eq!(Values::defaults().of(parameter.id), Some(parameter.default));
        }
    }

    /// The values of each table as they stand there, octet by octet.
    #[test]
    fn values_of_one_octet() {
        let every: Vec<u8> = (0..=255).collect();
        for id in [0x09, 0x10, 0x13, 0x14, 0x1A, 0x20, 0x2A, 0x2F] {
            assert_eq!(accepted(id), every, "{id:02X}");
        }
        for id in [0x08, 0x11, 0x19, 0x28] {
            assert_eq!(accepted(id), [0, 1], "{id:02X}");
        }
        assert_eq!(accepted(0x18), [1, 2]);
        assert_eq!(accepted(0x21), [0, 1, 2, 3]);
        let rates: Vec<u8> = [0, 1, 2, 3, 4, 5, 6, 0x20].into_iter().chain(0x80..=0xFE).collect();
        assert_eq!(accepted(0x68), rates);
    }

    #[test]
    fn other_lengths() {
        for parameter in &PARAMETERS {
            for length in [0, 2, 15, 16, 252] {
                let many = parameter.id == 0x20 && length <= 15;
                assert_eq!(parameter.accepts(&vec![1; length]), many, "{} {length}", parameter.name);
            }
        }
    }

    #[test]
    fn a_set_is_kept_or_changes_nothing_and_length_0_restores() {
        for parameter in &PARAMETERS {
            let (id, other) = (parameter.id, parameter.octets[0].end());
            let mut values = Values::defaults();
            assert!(values.set(id, &[*other]));
            assert_eq!(values.of(id), Some(&[*other][..]));
            let before = values.clone();
            assert!(!values.set(id, &[0; 16]));
            assert_eq!(values, before);
            assert!(values.set(id, &[]));
            assert_eq!(values, Values::defaults());
        }
        let mut values = Values::defaults();
        for id in (0..=255).filter(|id| !is_known(*id)) {
            assert!(!values.set(id, &[]) && !values.set(id, &[0]), "{id:02X}");
            assert_eq!(values.of(id), None);
        }
        assert_eq!(values, Values::defaults());
    }
}
