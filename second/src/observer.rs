//! Demand 3's account: an observer who sees the calls, their answers, the packets
//! put on wires and the messages handed out, and never the bench itself.
//!
//! It keeps the wires as document 01 says: a wire holds the packets put on it
//! since the last fresh or power and not yet taken by down or up. From that it
//! counts, in document 01's words, what each report must say; credits inside data
//! packets going up count as those of notices do. It reads octets on its own, so that
//! a fault of the packet layer does not excuse itself. An opening must state the pair
//! that the profile of the last fresh has for its connection.
//!
//! It also numbers the calls, and knows from sends and pushes what the host has in hand, from
//! the endpoint's messages and the replies what the endpoint has. What a close or reset
//! response discards was sent before its command. It keeps a diary of the values that sets
//! were accepted with: an OK response to a get shows those. No call that moves a packet of a
//! set or a get changes one of the numbers of a report.
//!
//! Every packet that it sees put has reserved bits 0, so no call shows one at 1. Read is
//! none of its calls: it is not to see one. Neither is run: a press stands for the moves that
//! it made, and each of them is seen as the call that it is.

mod diary;
mod hand;

use std::collections::VecDeque;

pub use crate::call::Event;
use crate::call::{Call, Outcome, REFUSALS};
use diary::Diary;
use hand::Hand;

/// Conn IDs that report takes.
const KNOWN: [u8; 5] = [0, 2, 3, 4, 5];
const WIRE_PACKETS: usize = 16;
const UNLIMITED: u8 = 255;

/// A packet as it lies on a wire.
struct Seen<'a> {
    message_type: u8,
    more: bool,
    /// GID or Conn ID.
    id: u8,
    /// Of a control packet the OID, of data the credits.
    second: u8,
    payload: &'a [u8],
}

/// Packets on these wires are whole and have reserved bits 0.
fn see_packet(octets: &[u8]) -> Result<Seen<'_>, String> {
    let well_formed = octets.len() >= 3
        && octets.len() == 3 + usize::from(octets[2])
        && octets[0] < 0x80
        && octets[1] < 0x40
        && (octets[0] >= 0x20 || octets[1] < 4);
    if !well_formed {
        return Err(format!("malformed packet {octets:02X?}"));
    }
    Ok(Seen {
        message_type: octets[0] >> 5,
        more: octets[0] & 0x10 != 0,
        id: octets[0] & 0x0F,
        second: octets[1],
        payload: &octets[3..],
    })
}

/// What a packet going up means for openings, closings and credits.
enum Meaning {
    Opens {
        conn: u8,
        payload: u8,
        credits: u8,
    },
    /// An OK response to CONN_CLOSE; the command names the connection.
    ClosesNamed,
    /// An OK response to RESET.
    ClosesAll,
    /// RF_DEACTIVATE_NTF.
    ClosesStatic,
    Credits(Vec<(u8, u8)>),
    Data {
        conn: u8,
        credits: u8,
    },
    Other,
}

fn meaning(octets: &[u8]) -> Result<Meaning, String> {
    let seen = see_packet(octets)?;
    let meaning = match (seen.message_type, seen.id, seen.second) {
        (0, conn, credits) => Meaning::Data { conn, credits },
        (2, 0, 0x00) if seen.payload == [0] => Meaning::ClosesAll,
        (2, 0, 0x04) if seen.payload.len() == 4 && seen.payload[0] == 0 => {
            Meaning::Opens { conn: seen.payload[3], payload: seen.payload[1], credits: seen.payload[2] }
        }
        (2, 0, 0x05) if seen.payload == [0] => Meaning::ClosesNamed,
        (3, 0, 0x06) => Meaning::Credits(see_entries(seen.payload)?),
        (3, 1, 0x05) if seen.payload.len() >= 11 => {
            Meaning::Opens { conn: 0, payload: seen.payload[4], credits: seen.payload[5] }
        }
        (3, 1, 0x06) => Meaning::ClosesStatic,
        (2 | 3, _, _) => Meaning::Other,
        _ => return Err(format!("not a packet of a controller {octets:02X?}")),
    };
    if seen.more && seen.message_type != 0 {
        return Err(format!("controller control message in more than one packet {octets:02X?}"));
    }
    Ok(meaning)
}

/// The entries (Conn ID, credits) of a credit notice.
fn see_entries(payload: &[u8]) -> Result<Vec<(u8, u8)>, String> {
    match payload.split_first() {
        Some((count, rest)) if *count > 0 && rest.len() == 2 * usize::from(*count) => {
            Ok(rest.chunks(2).map(|entry| (entry[0], entry[1])).collect())
        }
        _ => Err(format!("malformed credit notice {payload:02X?}")),
    }
}

/// What happened on a connection since the controller opened it.
#[derive(Clone, Debug, Default)]
struct ControllerSide {
    open: bool,
    grant: u8,
    taken_by_down: i64,
    consumed: i64,
    /// In notices and inside data packets.
    credits_put: i64,
    /// The endpoint's message, on connection 0.
    hand: Hand,
    /// Messages taken by air 8.
    taken: Vec<Vec<u8>>,
    /// Messages handed out by consume.
    handed_out: usize,
}

impl ControllerSide {
    fn close(&mut self) {
        self.open = false;
        self.hand = Hand::default();
    }
}

/// What happened on a connection since the host opened it.
#[derive(Clone, Debug, Default)]
struct HostSide {
    open: bool,
    payload: u8,
    grant: u8,
    hand: Hand,
    pushed: i64,
    credits_read: i64,
    /// Messages taken by send.
    taken: Vec<Vec<u8>>,
    /// Messages handed out by up.
    handed_out: usize,
}

#[derive(Clone, Debug, Default)]
struct Account {
    controller: ControllerSide,
    host: HostSide,
}

#[derive(Clone, Debug)]
struct Command {
    /// Its number among the calls.
    number: u64,
    gid: u8,
    oid: u8,
    payload: Vec<u8>,
}

impl Command {
    /// Low four bits of the first payload octet: what a close names, for its response
    /// does not.
    fn named(&self) -> Option<u8> {
        self.payload.first().map(|octet| octet & 15)
    }
}

#[derive(Clone, Debug, Default)]
pub struct Observer {
    /// Calls seen, refused ones too, from the list's first on.
    calls: u64,
    /// Messages in hand that a close or reset response discarded, in the whole list.
    discards: u64,
    /// The octets of the last fresh; none before it.
    profile: Vec<u8>,
    down_wire: VecDeque<Vec<u8>>,
    up_wire: VecDeque<Vec<u8>>,
    /// The command last taken.
    command: Option<Command>,
    diary: Diary,
    accounts: [Account; 5],
}

impl Observer {
    pub fn new() -> Observer {
        Observer::default()
    }

    /// Takes an event into the account, or says what is wrong with it.
    pub fn see(&mut self, event: &Event) -> Result<(), String> {
        self.calls += 1;
        if !event.outcome.taken() {
            nothing_happened(&event.outcome)?;
            return self.check_nothing_left(event);
        }
        let numbers = self.moves_config(&event.call).then(|| self.reports());
        let expected = self.expect(&event.call, &event.outcome)?;
        self.put_packets(&event.outcome)?;
        self.hand_out(&event.call, &event.outcome, &expected)?;
        if numbers.is_some_and(|numbers| numbers != self.reports()) {
            return Err("a set or a get changes what report says".to_string());
        }
        if event.outcome.drop != expected.drop {
            return Err(format!("drop flag {} where {} was due", event.outcome.drop, expected.drop));
        }
        if event.outcome.rfu != 0 {
            return Err(format!("reserved bits {:02X}, which no packet had", event.outcome.rfu));
        }
        Ok(())
    }

    fn account(&mut self, conn: u8) -> Option<&mut Account> {
        let place = KNOWN.iter().position(|known| *known == conn)?;
        Some(&mut self.accounts[place])
    }

    fn account_of(&self, conn: u8) -> Option<&Account> {
        let place = KNOWN.iter().position(|known| *known == conn)?;
        Some(&self.accounts[place])
    }

    // A taken call.

    /// What the call does by itself: taking a packet off a wire, counting.
    fn expect(&mut self, call: &Call, outcome: &Outcome) -> Result<Expected, String> {
        match call {
            Call::Fresh(profile) => *self = self.begun(profile.clone()),
            Call::Power => *self = self.begun(self.profile.clone()),
            Call::Command { gid, oid, payload } => {
                let (number, payload) = (self.calls, payload.clone());
                self.command = Some(Command { number, gid: *gid, oid: *oid, payload });
            }
            Call::Send { conn, message } => self.host_sends(*conn, message)?,
            Call::Push(conn) => self.host_pushes(*conn, outcome)?,
            Call::Down => return self.take_down(),
            Call::Consume(conn) => {
                self.require_account(*conn)?.controller.consumed += 1;
                return Ok(Expected { reader: Some(*conn), ..Expected::default() });
            }
            Call::Air(octets) => {
                if let Some((8, message)) = octets.split_first() {
                    self.endpoint_speaks(message)?;
                }
            }
            Call::Reply => self.endpoint_replies(outcome)?,
            Call::Up => return self.take_up(),
            Call::Credit | Call::Report(_) => {}
            Call::Read(_) => return Err("read is none of the calls of demand 3".to_string()),
            Call::Run => return Err("a press is seen by its moves".to_string()),
        }
        Ok(Expected::default())
    }

    /// Wires and connections as fresh and power leave them.
    fn begun(&self, profile: Vec<u8>) -> Observer {
        Observer { calls: self.calls, discards: self.discards, profile, ..Observer::default() }
    }

    fn require_account(&mut self, conn: u8) -> Result<&mut Account, String> {
        self.account(conn).ok_or_else(|| format!("taken on connection {conn}, which isn't there"))
    }

    /// Data for a connection not open at the controller is dropped.
    fn take_down(&mut self) -> Result<Expected, String> {
        let octets = self.down_wire.pop_front().ok_or("down taken from an empty wire")?;
        let seen = see_packet(&octets)?;
        let mut expected = Expected::default();
        if seen.message_type == 0 {
            match self.account(seen.id).filter(|account| account.controller.open) {
                Some(account) => account.controller.taken_by_down += 1,
                None => expected.drop = true,
            }
        }
        Ok(expected)
    }

    /// Openings, closings and credits as the host reads them.
    fn take_up(&mut self) -> Result<Expected, String> {
        let octets = self.up_wire.pop_front().ok_or("up taken from an empty wire")?;
        let mut expected = Expected::default();
        match meaning(&octets)? {
            Meaning::Opens { conn, payload, credits } => self.host_opens(conn, payload, credits)?,
            Meaning::ClosesNamed => self.response_closes(self.named()?)?,
            Meaning::ClosesAll => KNOWN.iter().try_for_each(|conn| self.response_closes(*conn))?,
            Meaning::ClosesStatic => self.host_closes(0),
            Meaning::Credits(entries) => {
                for (conn, credits) in entries {
                    match self.account(conn).filter(|account| account.host.open) {
                        Some(account) => account.host.credits_read += i64::from(credits),
                        None => expected.drop = true,
                    }
                }
            }
            Meaning::Data { conn, credits } => match self.account(conn).filter(|account| account.host.open) {
                Some(account) => {
                    account.host.credits_read += i64::from(credits);
                    expected.reader = Some(conn);
                }
                None => expected.drop = true,
            },
            Meaning::Other => {}
        }
        Ok(expected)
    }

    fn named(&self) -> Result<u8, String> {
        let named = self.command.as_ref().and_then(Command::named);
        named.ok_or_else(|| "a close that names no connection".to_string())
    }

    fn host_opens(&mut self, conn: u8, payload: u8, grant: u8) -> Result<(), String> {
        let account = self.require_account(conn)?;
        if account.host.open {
            return Err(format!("connection {conn} opened twice at the host"));
        }
        if payload == 0 {
            return Err(format!("connection {conn} opened with payload 0"));
        }
        account.host = HostSide { open: true, payload, grant, ..HostSide::default() };
        Ok(())
    }

    fn host_closes(&mut self, conn: u8) {
        if let Some(account) = self.account(conn) {
            account.host.open = false;
            account.host.hand = Hand::default();
        }
    }

    // Packets put on wires.

    fn put_packets(&mut self, outcome: &Outcome) -> Result<(), String> {
        for octets in &outcome.down {
            let seen = see_packet(octets)?;
            if seen.message_type == 0 && seen.second > 0 {
                return Err(format!("credits going down in {octets:02X?}"));
            }
            self.down_wire.push_back(octets.clone());
        }
        for octets in &outcome.up {
            self.controller_puts(octets)?;
            self.note_response(octets)?;
            self.up_wire.push_back(octets.clone());
        }
        if self.down_wire.len() > WIRE_PACKETS || self.up_wire.len() > WIRE_PACKETS {
            return Err("a wire holds over 16 packets".to_string());
        }
        Ok(())
    }

    /// Openings, closings and credits as the controller puts them up.
    fn controller_puts(&mut self, octets: &[u8]) -> Result<(), String> {
        match meaning(octets)? {
            Meaning::Opens { conn, payload, credits } => {
                self.controller_opens(conn, credits)?;
                self.check_terms(conn, [payload, credits])?;
            }
            Meaning::ClosesNamed => {
                let conn = self.named()?;
                self.require_account(conn)?.controller.close();
            }
            Meaning::ClosesAll => self.accounts.iter_mut().for_each(|account| account.controller.close()),
            Meaning::ClosesStatic => self.require_account(0)?.controller.close(),
            Meaning::Credits(entries) => {
                for (conn, credits) in entries {
                    self.require_account(conn)?.controller.credits_put += i64::from(credits);
                }
            }
            Meaning::Data { conn, credits } => self.controller_returns(conn, credits)?,
            Meaning::Other => {}
        }
        Ok(())
    }

    /// Credits inside a data packet: only where flow control asks for any.
    fn controller_returns(&mut self, conn: u8, credits: u8) -> Result<(), String> {
        let controller = &mut self.require_account(conn)?.controller;
        if credits > 0 && (!controller.open || controller.grant == UNLIMITED) {
            return Err(format!("{credits} credits in data of {conn}, where nothing is owed"));
        }
        controller.credits_put += i64::from(credits);
        Ok(())
    }

    /// Payload and credits are those at the connection's own place in the profile; the
    /// pair of 0 is the last, and of five octets the first pair is that of 2-5.
    fn check_terms(&self, conn: u8, terms: [u8; 2]) -> Result<(), String> {
        let due = match (self.profile.len(), conn) {
            (0, _) => return Ok(()),
            (octets, 0) => &self.profile[octets - 2..],
            (5, _) => &self.profile[1..3],
            (_, conn) => &self.profile[2 * usize::from(conn) - 3..][..2],
        };
        if terms == due {
            Ok(())
        } else {
            Err(format!("connection {conn} opened with {terms:?}, where the profile has {due:?}"))
        }
    }

    /// An opening begins both accounts anew: nothing of an earlier holder of the
    /// Conn ID counts. The host must have read the end of the earlier one.
    fn controller_opens(&mut self, conn: u8, grant: u8) -> Result<(), String> {
        let account = self.require_account(conn)?;
        if account.controller.open || account.host.open {
            return Err(format!("connection {conn} opened while still open"));
        }
        *account = Account::default();
        account.controller = ControllerSide { open: true, grant, ..ControllerSide::default() };
        Ok(())
    }

    // Messages handed out.

    /// The messages handed out on a connection are, in order, the first of those
    /// taken at the other end; on a loopback both ends hand out the host's.
    fn hand_out(&mut self, call: &Call, outcome: &Outcome, expected: &Expected) -> Result<(), String> {
        let Some(message) = &outcome.message else {
            return Ok(());
        };
        if let Call::Report(conn) = call {
            return self.check_report(*conn, outcome);
        }
        let conn = expected.reader.ok_or("a message handed out by a call that reads no data")?;
        let at_host = matches!(call, Call::Up);
        let account = self.require_account(conn)?;
        let taken = if at_host && conn == 0 { &account.controller.taken } else { &account.host.taken };
        let handed_out =
            if at_host { &mut account.host.handed_out } else { &mut account.controller.handed_out };
        if taken.get(*handed_out) != Some(message) {
            return Err(format!("message {} handed out on {conn} is not the one taken", *handed_out + 1));
        }
        *handed_out += 1;
        Ok(())
    }

    // Reports.

    /// Whether report is taken, and its five numbers.
    pub fn expected_report(&self, conn: u8) -> Outcome {
        let refused = |answer| Outcome { answer, ..Outcome::default() };
        let Some(account) = self.account_of(conn) else {
            return refused(3);
        };
        if !account.controller.open {
            return refused(6);
        }
        // A number outside an octet shows as a mismatch of the sum or of the report.
        let numbers = self.five_numbers(conn, account).map(|number| number as u8);
        Outcome { message: Some(numbers.to_vec()), ..Outcome::default() }
    }

    /// What report says of each connection.
    fn reports(&self) -> [Outcome; KNOWN.len()] {
        KNOWN.map(|conn| self.expected_report(conn))
    }

    fn five_numbers(&self, conn: u8, account: &Account) -> [i64; 5] {
        let controller = &account.controller;
        let stored = controller.taken_by_down - controller.consumed;
        let going_down = self.data_on_down_wire(conn);
        if controller.grant == UNLIMITED {
            return [i64::from(UNLIMITED), going_down, stored, 0, 0];
        }
        let owed = controller.consumed - controller.credits_put;
        [account.host.held(), going_down, stored, owed, self.credits_on_up_wire(conn)]
    }

    /// Under flow control the five numbers come to the grant.
    pub fn sum_to_grant(&self) -> Result<(), String> {
        for conn in KNOWN {
            let account = self.account_of(conn).expect("a known Conn ID");
            if !account.controller.open || account.controller.grant == UNLIMITED {
                continue;
            }
            let numbers = self.five_numbers(conn, account);
            if numbers.iter().sum::<i64>() != i64::from(account.controller.grant) {
                let grant = account.controller.grant;
                return Err(format!("connection {conn}: {numbers:?} do not come to the grant {grant}"));
            }
        }
        Ok(())
    }

    fn check_report(&self, conn: u8, outcome: &Outcome) -> Result<(), String> {
        let expected = self.expected_report(conn);
        if *outcome == expected {
            Ok(())
        } else {
            Err(format!("report of {conn}: {outcome:?} where {expected:?} was due"))
        }
    }

    fn data_on_down_wire(&self, conn: u8) -> i64 {
        self.down_wire.iter().filter(|octets| octets[0] & 0xEF == conn).count() as i64
    }

    /// Credits in notices and in data, and grants of openings, not yet read.
    fn credits_on_up_wire(&self, conn: u8) -> i64 {
        let carried = |octets: &Vec<u8>| match meaning(octets) {
            Ok(Meaning::Opens { conn: opened, credits, .. }) if opened == conn => i64::from(credits),
            Ok(Meaning::Data { conn: of, credits }) if of == conn => i64::from(credits),
            Ok(Meaning::Credits(entries)) => {
                entries.iter().filter(|entry| entry.0 == conn).map(|entry| i64::from(entry.1)).sum()
            }
            _ => 0,
        };
        self.up_wire.iter().map(carried).sum()
    }

    /// Whether the grant that the controller gave is a number of credits.
    pub fn has_flow_control(&self, conn: u8) -> bool {
        self.account_of(conn).is_some_and(|account| account.controller.grant != UNLIMITED)
    }

    pub fn is_open_at_host(&self, conn: u8) -> bool {
        self.account_of(conn).is_some_and(|account| account.host.open)
    }

    /// Messages taken on connections now open at both ends and not handed out:
    /// none once a bench has come to rest.
    pub fn messages_outstanding(&self) -> usize {
        let outstanding = |(conn, account): (&u8, &Account)| {
            if !account.controller.open || !account.host.open {
                return 0;
            }
            let to_controller = account.host.taken.len() - account.controller.handed_out;
            let going_up = if *conn == 0 { &account.controller.taken } else { &account.host.taken };
            to_controller + going_up.len() - account.host.handed_out
        };
        KNOWN.iter().zip(&self.accounts).map(outstanding).sum()
    }
}

/// What the account foresees of a taken call's outcome.
#[derive(Default)]
struct Expected {
    drop: bool,
    /// The connection on which the call may hand a message out.
    reader: Option<u8>,
}

impl HostSide {
    /// 0 while the host hasn't the connection open; since opening it, the grant
    /// and credits read less packets pushed.
    fn held(&self) -> i64 {
        if self.open {
            i64::from(self.grant) + self.credits_read - self.pushed
        } else {
            0
        }
    }
}

/// A refused call counts for nothing, and does nothing.
fn nothing_happened(outcome: &Outcome) -> Result<(), String> {
    let refusal = Outcome { answer: outcome.answer, ..Outcome::default() };
    if *outcome == refusal && REFUSALS.contains(&outcome.answer) {
        Ok(())
    } else {
        Err(format!("refused, yet {outcome:?}"))
    }
}
