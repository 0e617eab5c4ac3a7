//! The twelve calls of the bench, run, which plays some of them, and read, which needs no
//! bench; their outcomes and the numbers for a call not taken.

/// A call with its arguments, as the sheet writes them. `fresh` has the octets of a
/// profile, five or eleven, and refuses another number; `air` has its kind first
/// (decision on the argument of air). `read` has any octets.
#[derive(Clone, Debug, PartialEq, Eq)]
pub enum Call {
    Fresh(Vec<u8>),
    Power,
    Command {
        gid: u8,
        oid: u8,
        payload: Vec<u8>,
    },
    Send {
        conn: u8,
        message: Vec<u8>,
    },
    Push(u8),
    Down,
    Consume(u8),
    Credit,
    Air(Vec<u8>),
    Reply,
    Up,
    Report(u8),
    Read(Vec<u8>),
    /// Run to rest.
    Run,
}

impl Call {
    /// The names of all calls, in document 01's order; read and run, of document 02, are the last.
    pub const NAMES: [&'static str; 14] = [
        "fresh", "power", "command", "send", "push", "down", "consume", "credit", "air", "reply", "up",
        "report", "read", "run",
    ];

    pub fn name(&self) -> &'static str {
        Call::NAMES[self.index()]
    }

    /// The call's place in `NAMES`.
    pub fn index(&self) -> usize {
        match self {
            Call::Fresh(_) => 0,
            Call::Power => 1,
            Call::Command { .. } => 2,
            Call::Send { .. } => 3,
            Call::Push(_) => 4,
            Call::Down => 5,
            Call::Consume(_) => 6,
            Call::Credit => 7,
            Call::Air(_) => 8,
            Call::Reply => 9,
            Call::Up => 10,
            Call::Report(_) => 11,
            Call::Read(_) => 12,
            Call::Run => 13,
        }
    }

    /// Demand 3 speaks of lists of the twelve calls: read is none of them.
    pub fn is_read(&self) -> bool {
        matches!(self, Call::Read(_))
    }

    /// Whether the call leaves every bench as it was, also where it is taken.
    pub fn only_looks(&self) -> bool {
        matches!(self, Call::Report(_) | Call::Read(_))
    }
}

/// Document 01, "Numbers for a call not taken"; 1 and 2 concern octet areas.
#[derive(Clone, Copy, Debug, PartialEq, Eq)]
pub enum Refusal {
    ArgumentOutsideLimit = 3,
    TooFewSlots = 4,
    CommandUnanswered = 5,
    NotOpen = 6,
    MessageInHand = 7,
    NothingToMove = 8,
    NoCredit = 9,
    CloseUnanswered = 10,
    AirNotTaken = 11,
    StoreFull = 12,
    WiresNotEmpty = 14,
    SendDuringClose = 15,
}

/// The numbers that a call here can answer: those of the card from 3 on, which has no 13.
pub const REFUSALS: [u8; 12] = [3, 4, 5, 6, 7, 8, 9, 10, 11, 12, 14, 15];
/// Places for a count of each answer, 0 and every number.
pub const ANSWERS: usize = Refusal::SendDuringClose as usize + 1;

/// What a call did. A refused call has a number for its answer and nothing else.
#[derive(Clone, Debug, Default, PartialEq, Eq)]
pub struct Outcome {
    /// 0 taken, else the refusal.
    pub answer: u8,
    /// A packet was dropped, or an entry of a credit notice.
    pub drop: bool,
    /// The reserved bits of octet 1 that were at 1 in the packet read, by down, up and
    /// read, in their places; 0 where the drop flag is set.
    pub rfu: u8,
    /// Packets put on the down wire.
    pub down: Vec<Vec<u8>>,
    /// Packets put on the up wire.
    pub up: Vec<Vec<u8>>,
    /// The message handed out; for report its five octets.
    pub message: Option<Vec<u8>>,
    /// How many moves run made; 0 of every other call.
    pub moves: usize,
}

impl Outcome {
    pub fn refused(refusal: Refusal) -> Outcome {
        Outcome { answer: refusal as u8, ..Outcome::default() }
    }

    pub fn taken(&self) -> bool {
        self.answer == 0
    }
}

/// A call and what came of it.
#[derive(Clone, Debug, PartialEq, Eq)]
pub struct Event {
    pub call: Call,
    pub outcome: Outcome,
}
