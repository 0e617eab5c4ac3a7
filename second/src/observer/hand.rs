//! The account of messages in hand: at the host from sends, pushes and the payload that it
//! read with the opening alone, at the endpoint from its messages and the replies.
//!
//! Segments are counted here and never asked of the bench: how many moves presses of run make
//! is foretold from them (`trial::exact`), and must be what was seen of the calls.

use super::{see_packet, Event, Observer};
use crate::call::{Call, Outcome};

/// The endpoint's messages are cut at the most octets that a packet holds.
const ENDPOINT_PAYLOAD: u8 = 255;
/// Nothing to push or to reply.
const NOTHING_TO_MOVE: u8 = 8;

/// A message taken by send, or from the endpoint, of which a segment is still to go.
#[derive(Clone, Debug)]
struct Message {
    /// The number of the call that took it.
    sent: u64,
    segments_left: usize,
}

/// What one end has in hand on one connection.
#[derive(Clone, Debug, Default)]
pub(super) struct Hand(Option<Message>);

impl Hand {
    /// A message of so many octets; an empty one is one bare segment.
    fn take(&mut self, sent: u64, octets: usize, payload: u8) -> Result<(), String> {
        if self.0.is_some() {
            return Err("a message taken while another is in hand".to_string());
        }
        let segments_left = octets.div_ceil(usize::from(payload)).max(1);
        self.0 = Some(Message { sent, segments_left });
        Ok(())
    }

    /// One segment goes; `more` is its PBF, 0 in the last.
    fn push(&mut self, more: bool) -> Result<(), String> {
        let message = self.0.as_mut().ok_or("a segment with nothing in hand")?;
        message.segments_left -= 1;
        let left = message.segments_left;
        if more != (left > 0) {
            return Err(format!("a segment with PBF {} and {left} segments left", u8::from(more)));
        }
        if left == 0 {
            self.0 = None;
        }
        Ok(())
    }

    /// Empties the hand and gives the number of the send whose message was in it.
    fn discard(&mut self) -> Option<u64> {
        self.0.take().map(|message| message.sent)
    }

    fn segments_left(&self) -> usize {
        self.0.as_ref().map_or(0, |message| message.segments_left)
    }
}

/// The one data packet that a push or a reply put: its PBF.
fn see_segment(put: &[Vec<u8>], conn: u8) -> Result<bool, String> {
    let [octets] = put else {
        return Err(format!("a segment on {conn} in {} packets", put.len()));
    };
    let seen = see_packet(octets)?;
    if (seen.message_type, seen.id) != (0, conn) {
        return Err(format!("a segment on {conn} in {octets:02X?}"));
    }
    Ok(seen.more)
}

impl Observer {
    /// Messages that close and reset responses discarded, in the whole list.
    pub fn discards(&self) -> u64 {
        self.discards
    }

    /// Segments of the message in hand at the host that are still to be pushed.
    pub fn segments_in_hand(&self, conn: u8) -> usize {
        self.account_of(conn).map_or(0, |account| account.host.hand.segments_left())
    }

    /// Segments of the endpoint's message that are still to be replied.
    pub fn reply_segments(&self) -> usize {
        self.account_of(0).map_or(0, |account| account.controller.hand.segments_left())
    }

    pub(super) fn host_sends(&mut self, conn: u8, message: &[u8]) -> Result<(), String> {
        let number = self.calls;
        let host = &mut self.require_account(conn)?.host;
        if !host.open {
            return Err(format!("a message taken on {conn}, which is not open at the host"));
        }
        host.hand.take(number, message.len(), host.payload)?;
        host.taken.push(message.to_vec());
        Ok(())
    }

    /// The next segment of the message in hand.
    pub(super) fn host_pushes(&mut self, conn: u8, outcome: &Outcome) -> Result<(), String> {
        let more = see_segment(&outcome.down, conn)?;
        let host = &mut self.require_account(conn)?.host;
        host.pushed += 1;
        host.hand.push(more)
    }

    /// A message of the endpoint. Closing connection 0 at the controller discards it.
    pub(super) fn endpoint_speaks(&mut self, message: &[u8]) -> Result<(), String> {
        let number = self.calls;
        let controller = &mut self.require_account(0)?.controller;
        if !controller.open {
            return Err("a message of the endpoint, and 0 is not open at the controller".to_string());
        }
        controller.hand.take(number, message.len(), ENDPOINT_PAYLOAD)?;
        controller.taken.push(message.to_vec());
        Ok(())
    }

    /// The next segment of the endpoint's message.
    pub(super) fn endpoint_replies(&mut self, outcome: &Outcome) -> Result<(), String> {
        let more = see_segment(&outcome.up, 0)?;
        self.require_account(0)?.controller.hand.push(more)
    }

    /// Where push or reply finds nothing to move, no segment is left.
    pub(super) fn check_nothing_left(&self, refused: &Event) -> Result<(), String> {
        let left = match (&refused.call, refused.outcome.answer) {
            (Call::Push(conn), NOTHING_TO_MOVE) => self.segments_in_hand(*conn),
            (Call::Reply, NOTHING_TO_MOVE) => self.reply_segments(),
            _ => 0,
        };
        match left {
            0 => Ok(()),
            left => Err(format!("{} finds nothing to move with {left} segments left", refused.call.name())),
        }
    }

    /// An OK response to CONN_CLOSE or RESET. What it discards from hand was sent before
    /// the command.
    pub(super) fn response_closes(&mut self, conn: u8) -> Result<(), String> {
        let command = self.command.as_ref().ok_or("a response to no command")?.number;
        let sent = self.account(conn).and_then(|account| account.host.hand.discard());
        if sent.is_some_and(|sent| sent >= command) {
            return Err(format!("the close of {conn} discards a message that was sent after the command"));
        }
        self.discards += u64::from(sent.is_some());
        self.host_closes(conn);
        Ok(())
    }
}
