//! What credits come to, and whether that is within the grant. No list of calls from
//! fresh brings credits held or owed past a grant, so no call asks; a trial asks, of
//! every call that was taken.

use crate::bench::Bench;
use crate::call::Call;
use crate::layout::{self, Notification};
use crate::packet::{self, Joined, MessageType, Packet, Reading};
use crate::profile::Terms;

/// What adds credits: at the host a notice or data, at the controller consume.
#[derive(Clone, Copy, Debug, PartialEq, Eq)]
pub enum Source {
    Notice = 0,
    Data = 1,
    Consume = 2,
}

impl Source {
    /// By place.
    pub const NAMES: [&'static str; 3] = ["notice", "data", "consume"];

    pub fn name(self) -> &'static str {
        Source::NAMES[self as usize]
    }
}

/// Credits added on an open connection with flow control. Data may add 0.
#[derive(Clone, Copy, Debug, PartialEq, Eq)]
pub struct Sum {
    pub source: Source,
    pub conn: u8,
    pub grant: u8,
    /// Held or owed before.
    pub count: u8,
    pub added: u8,
}

impl Sum {
    /// None without flow control: nothing is counted there.
    fn new(source: Source, conn: u8, terms: Terms, count: u8, added: u8) -> Option<Sum> {
        terms.flow_controlled().then_some(Sum { source, conn, grant: terms.credits, count, added })
    }

    /// Held, or owed before any is carried, and not as an octet counts.
    pub fn credits(&self) -> u16 {
        u16::from(self.count) + u16::from(self.added)
    }

    /// What the bench makes of it: an octet, modulo 256.
    pub fn as_octet(&self) -> u8 {
        (self.credits() % 256) as u8
    }

    pub fn comes_to_grant(&self) -> bool {
        self.added > 0 && self.credits() == u16::from(self.grant)
    }

    pub fn passes_grant(&self) -> bool {
        self.credits() > u16::from(self.grant)
    }

    pub fn passes_octet(&self) -> bool {
        self.credits() > 255
    }
}

/// The sums that a call makes on this bench if it is taken: none but for consume and up.
pub fn sums(bench: &Bench, call: &Call) -> Vec<Sum> {
    match call {
        Call::Consume(conn) => consumed(bench, *conn).into_iter().collect(),
        Call::Up => match bench.up_wire().front().map(|octets| packet::read(octets)) {
            Some(Reading::Packet(packet)) => brought(bench, &packet),
            _ => Vec::new(),
        },
        _ => Vec::new(),
    }
}

fn consumed(bench: &Bench, conn: u8) -> Option<Sum> {
    let open = bench.controller().connection(conn)?;
    Sum::new(Source::Consume, conn, open.terms, open.owed, 1)
}

/// By a data packet, or by the notice that a packet ends.
fn brought(bench: &Bench, packet: &Packet) -> Vec<Sum> {
    let (source, entries) = match packet.message_type {
        MessageType::Data => (Source::Data, vec![(packet.id, packet.credits)]),
        MessageType::Notification => (Source::Notice, noticed(bench, packet)),
        MessageType::Command | MessageType::Response => return Vec::new(),
    };
    let sum = |(conn, credits): (u8, u8)| {
        let open = bench.host().connection(conn)?;
        Sum::new(source, conn, open.terms, open.held, credits)
    };
    entries.into_iter().filter_map(sum).collect()
}

/// The entries of the credit notice that this notification ends, if it ends one.
fn noticed(bench: &Bench, packet: &Packet) -> Vec<(u8, u8)> {
    let Joined::Whole(payload) = bench.host().control_run.clone().join(packet) else {
        return Vec::new();
    };
    match layout::read_notification(packet.id, packet.oid, &payload) {
        Some(Notification::Credits(entries)) => entries,
        _ => Vec::new(),
    }
}

/// No sum of a call that was taken passes its grant: what a consume leaves owed is looked
/// at before any of it is carried.
pub fn check_grants(sums: &[Sum]) -> Result<(), String> {
    match sums.iter().find(|sum| sum.passes_grant()) {
        None => Ok(()),
        Some(sum) => {
            let (conn, source, credits) = (sum.conn, sum.source.name(), sum.credits());
            Err(format!("{source} on {conn}: {credits} credits, past the grant of {}", sum.grant))
        }
    }
}
