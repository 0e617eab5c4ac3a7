//! The host: its commands, the messages it has in hand, the credits it holds and
//! what it makes of packets coming up (document 01, "Calls", and document 02,
//! "Credits inside data packets").

use crate::connection::{place_of, CONN_IDS, STATIC_RF};
use crate::layout::{self, Notification, Response, CORE, CORE_CONN_CLOSE, CORE_RESET};
use crate::packet::{self, ControlRun, InHand, Joined, MessageType, Packet, Reading, Run};
use crate::profile::{Terms, LEAST_CONTROL_PAYLOAD};

/// A command whose response the host hasn't read.
#[derive(Clone, Copy, Debug, PartialEq, Eq)]
pub struct Unanswered {
    pub gid: u8,
    pub oid: u8,
    /// The low four bits of the payload's first octet: the response to CONN_CLOSE
    /// names no connection, so the host remembers what it asked to close.
    pub named: Option<u8>,
}

/// A connection open at the host. Closing drops this whole, and so discards the
/// message in hand and reassembly.
#[derive(Clone, Debug, PartialEq, Eq)]
pub struct Connection {
    pub terms: Terms,
    /// Since opening: the grant and credits read less packets pushed, as an octet
    /// counts: modulo 256.
    pub held: u8,
    pub in_hand: Option<InHand>,
    pub run: Run,
}

impl Connection {
    fn opened(terms: Terms) -> Connection {
        Connection { terms, held: terms.credits, in_hand: None, run: Run::of_data() }
    }

    pub fn has_message_in_hand(&self) -> bool {
        self.in_hand.is_some()
    }

    pub fn held(&self) -> u8 {
        self.held
    }

    /// Refusal 9.
    pub fn lacks_credit(&self) -> bool {
        self.terms.flow_controlled() && self.held == 0
    }

    fn add_credits(&mut self, credits: u8) {
        if self.terms.flow_controlled() {
            self.held = self.held.wrapping_add(credits);
        }
    }

    fn spend_credit(&mut self) {
        if self.terms.flow_controlled() {
            self.held = self.held.wrapping_sub(1);
        }
    }
}

/// What `up` brought about at the host.
#[derive(Default)]
pub struct Taken {
    pub drop: bool,
    pub message: Option<Vec<u8>>,
}

impl Taken {
    fn dropped() -> Taken {
        Taken { drop: true, message: None }
    }
}

#[derive(Clone, Debug, PartialEq, Eq)]
pub struct Host {
    /// Commands are cut here.
    pub control_size: u8,
    pub unanswered: Option<Unanswered>,
    pub connections: [Option<Connection>; 5],
    pub control_run: ControlRun,
}

impl Host {
    pub fn cold() -> Host {
        Host {
            control_size: LEAST_CONTROL_PAYLOAD,
            unanswered: None,
            connections: [const { None }; 5],
            control_run: ControlRun::new(),
        }
    }

    pub fn control_size(&self) -> usize {
        usize::from(self.control_size)
    }

    pub fn awaits_response(&self) -> bool {
        self.unanswered.is_some()
    }

    /// Refusals 10 and 15: the connections may be about to close.
    pub fn awaits_close(&self) -> bool {
        self.unanswered.is_some_and(|command| {
            command.gid == CORE && [CORE_RESET, CORE_CONN_CLOSE].contains(&command.oid)
        })
    }

    /// The connection if it is open at the host.
    pub fn connection(&self, conn: u8) -> Option<&Connection> {
        self.connections[place_of(conn)?].as_ref()
    }

    fn connection_mut(&mut self, conn: u8) -> Option<&mut Connection> {
        self.connections[place_of(conn)?].as_mut()
    }

    fn open(&mut self, conn: u8, terms: Terms) {
        if let Some(place) = place_of(conn) {
            self.connections[place] = Some(Connection::opened(terms));
        }
    }

    fn close(&mut self, conn: u8) {
        if let Some(place) = place_of(conn) {
            self.connections[place] = None;
        }
    }

    // Going down.

    /// All packets of a command, which now is unanswered.
    pub fn command(&mut self, gid: u8, oid: u8, payload: &[u8]) -> Vec<Vec<u8>> {
        self.unanswered = Some(Unanswered { gid, oid, named: payload.first().map(|octet| octet & 0x0F) });
        packet::command_packets(gid, oid, payload, self.control_size())
    }

    pub fn send(&mut self, conn: u8, message: &[u8]) {
        if let Some(open) = self.connection_mut(conn) {
            open.in_hand = Some(InHand::new(message.to_vec()));
        }
    }

    /// The next segment of the message in hand; one credit is spent if the
    /// connection is flow-controlled.
    pub fn push(&mut self, conn: u8) -> Option<Vec<u8>> {
        let open = self.connection_mut(conn)?;
        let segment = open.in_hand.as_mut()?.cut(usize::from(open.terms.payload));
        if !segment.more {
            open.in_hand = None;
        }
        open.spend_credit();
        Some(packet::write_data(conn, 0, &segment))
    }

    // Coming up.

    /// Takes a packet off the up wire. A command is dropped by its MT and neither
    /// joins nor ends a run (decision on control runs).
    pub fn take(&mut self, octets: &[u8]) -> Taken {
        let Reading::Packet(packet) = packet::read(octets) else {
            return Taken::dropped();
        };
        match packet.message_type {
            MessageType::Command => Taken::dropped(),
            MessageType::Data => self.take_data(&packet),
            MessageType::Response | MessageType::Notification => self.take_control(&packet),
        }
    }

    /// The packet's credits count as it is read, also where its run is lost; for a
    /// connection not open they are dropped with it.
    fn take_data(&mut self, packet: &Packet) -> Taken {
        let Some(open) = self.connection_mut(packet.id) else {
            return Taken::dropped();
        };
        open.add_credits(packet.credits);
        match open.run.join(packet.payload, packet.more) {
            Joined::Partly => Taken::default(),
            Joined::Whole(message) => Taken { drop: false, message: Some(message) },
            Joined::Dropped => Taken::dropped(),
        }
    }

    /// A run is judged when it is whole.
    fn take_control(&mut self, packet: &Packet) -> Taken {
        let drop = match self.control_run.join(packet) {
            Joined::Partly => false,
            Joined::Dropped => true,
            Joined::Whole(payload) if packet.message_type == MessageType::Response => {
                self.hear_response(packet.id, packet.oid, &payload)
            }
            Joined::Whole(payload) => self.hear_notification(packet.id, packet.oid, &payload),
        };
        Taken { drop, message: None }
    }

    /// Whether the response is dropped: the unanswered command doesn't await it.
    /// One with contents never written here leaves its command unanswered.
    fn hear_response(&mut self, gid: u8, oid: u8, payload: &[u8]) -> bool {
        let Some(command) = self.unanswered.filter(|command| (command.gid, command.oid) == (gid, oid)) else {
            return true;
        };
        if let Some(response) = layout::read_response(gid, oid, payload) {
            self.unanswered = None;
            self.heed_response(response, command);
        }
        false
    }

    fn heed_response(&mut self, response: Response, command: Unanswered) {
        match response {
            Response::Refused | Response::Config | Response::RfDone => {}
            Response::Reset => self.forget_controller(),
            Response::Init { control_payload } => self.control_size = control_payload,
            Response::Created { conn, terms } => self.open(conn, terms),
            Response::Closed => {
                if let Some(conn) = command.named {
                    self.close(conn);
                }
            }
        }
    }

    /// An OK reset response closes all connections, and commands are cut at 32
    /// again.
    fn forget_controller(&mut self) {
        for conn in CONN_IDS {
            self.close(conn);
        }
        self.control_size = LEAST_CONTROL_PAYLOAD;
    }

    /// Whether anything in the notification is dropped. Connection 0 is opened by
    /// the activation and closed by the deactivation, never by RF_DEACTIVATE_RSP.
    fn hear_notification(&mut self, gid: u8, oid: u8, payload: &[u8]) -> bool {
        match layout::read_notification(gid, oid, payload) {
            None => false,
            Some(Notification::Credits(entries)) => self.take_credits(&entries),
            Some(Notification::Activated(terms)) => {
                self.open(STATIC_RF, terms);
                false
            }
            Some(Notification::Deactivated) => {
                self.close(STATIC_RF);
                false
            }
        }
    }

    /// Decision on credit notices: an entry for a connection that is not open
    /// sets the drop flag, and the others count.
    fn take_credits(&mut self, entries: &[(u8, u8)]) -> bool {
        let mut drop = false;
        for (conn, credits) in entries {
            match self.connection_mut(*conn) {
                Some(open) => open.add_credits(*credits),
                None => drop = true,
            }
        }
        drop
    }

    // For tests: what no list of calls makes.

    /// Opens a connection with any grant and any count of credits held.
    pub fn forge_holding(&mut self, conn: u8, terms: Terms, held: u8) {
        let place = place_of(conn).expect("the host opens 0 and 2-5");
        self.connections[place] = Some(Connection { held, ..Connection::opened(terms) });
    }

    /// Puts a message in hand on an open connection.
    pub fn forge_in_hand(&mut self, conn: u8, message: InHand) {
        let open = self.connection_mut(conn).expect("the connection is open");
        open.in_hand = Some(message);
    }
}
