//! A bench in octets, lent to the proved calls between fences. At every call the
//! header's rules are checked: a refused call changes no octet, a taken one none past
//! 36,864 and none of the buffer past the message that it hands out.

use exam_bench::call::Call;

use crate::exports;
use crate::fence::Fenced;
use crate::press;
use crate::record::AREA;
use crate::word;

/// Most octets lent past the end of an area, and in a buffer.
pub const PAST: usize = 600;
pub const BUFFER: usize = 1024;

/// How many octets are lent.
#[derive(Clone, Copy, Debug, PartialEq, Eq)]
pub struct Room {
    pub area: usize,
    pub buffer: usize,
}

impl Room {
    pub const EXACT: Room = Room { area: AREA, buffer: BUFFER };
}

/// What a call answered.
#[derive(Clone, Debug, PartialEq, Eq)]
pub struct Seen {
    pub word: u64,
    pub message: Option<Vec<u8>>,
}

pub struct Lent {
    /// The octets that are lent, as the last taken call left them.
    octets: Vec<u8>,
    /// Where they are lent, and how many of them stand there now.
    area: Fenced,
    stands: usize,
    buffer: Fenced,
    argument: Fenced,
    /// What the buffer is filled with before a call.
    mark: u8,
}

impl Default for Lent {
    fn default() -> Lent {
        Lent {
            octets: (0..AREA + PAST).map(|place| (place % 251) as u8).collect(),
            area: Fenced::new(AREA + PAST),
            stands: 0,
            buffer: Fenced::new(BUFFER + PAST),
            argument: Fenced::new(BUFFER + PAST),
            mark: 0,
        }
    }
}

impl Lent {
    /// The octets as they are; the first 36,864 are the bench.
    pub fn octets(&self) -> &[u8] {
        &self.octets
    }

    /// Puts other octets in place of the bench's.
    pub fn put(&mut self, octets: &[u8]) {
        self.octets[..AREA].copy_from_slice(&octets[..AREA]);
        self.stands = 0;
    }

    /// Changes the bench's octets.
    pub fn damage(&mut self, change: impl FnOnce(&mut [u8])) {
        change(&mut self.octets[..AREA]);
        self.stands = 0;
    }

    /// Makes a call.
    pub fn call(&mut self, call: &Call, room: Room) -> Result<Seen, String> {
        let seen = self.ask(call, room)?;
        self.settle(seen.word)?;
        Ok(seen)
    }

    /// Presses run. Its moves, made one by one on the octets that it was lent, come to the same
    /// word, area and buffer.
    pub fn press(&mut self, room: Room) -> Result<Seen, String> {
        let mut area = self.octets[..room.area].to_vec();
        let seen = self.call(&Call::Run, room)?;
        if word::answer(seen.word) != 0 {
            return Ok(seen);
        }
        let mut buffer = vec![self.mark; room.buffer];
        let word = press::one_by_one(&mut area, &mut buffer);
        if seen.word != word {
            return Err(format!("word {:#x}, by its moves {word:#x}", seen.word));
        }
        if area != self.area.last(room.area) || buffer != self.buffer.last(room.buffer) {
            return Err("area or buffer are not what its moves leave".to_string());
        }
        Ok(seen)
    }

    /// Makes a call that only looks. Whether the area is as it was, `unchanged` tells.
    pub fn look(&mut self, call: &Call, room: Room) -> Result<Seen, String> {
        self.ask(call, room)
    }

    /// Reads a packet of a wire, which only looks.
    pub fn packet(&mut self, wire: u8, back: u8, room: Room) -> Result<Seen, String> {
        self.lend(room);
        let buffer = self.buffer.last(room.buffer);
        seen(exports::packet(self.area.last(room.area), buffer, wire, back), buffer, self.mark)
    }

    /// Asks what is going on, which only looks.
    pub fn state(&mut self, room: Room) -> Result<Seen, String> {
        self.lend(room);
        let buffer = self.buffer.last(room.buffer);
        seen(exports::state(self.area.last(room.area), buffer), buffer, self.mark)
    }

    fn ask(&mut self, call: &Call, room: Room) -> Result<Seen, String> {
        self.lend(room);
        let argument = exports::argument(call);
        let lent = self.argument.last(argument.len());
        lent.copy_from_slice(argument);
        let buffer = self.buffer.last(room.buffer);
        let word = exports::play(self.area.last(room.area), buffer, call, lent);
        if lent != argument {
            return Err("the argument changed".to_string());
        }
        seen(word, buffer, self.mark)
    }

    /// So many octets stand between the fences, and the buffer has a new mark.
    fn lend(&mut self, room: Room) {
        if self.stands != room.area {
            self.area.last(room.area).copy_from_slice(&self.octets[..room.area]);
            self.stands = room.area;
        }
        self.mark = self.mark.wrapping_add(1);
        self.buffer.last(room.buffer).fill(self.mark);
    }

    /// The area after a call: as it was if the call was refused; past its 36,864
    /// octets as it was in any case.
    fn settle(&mut self, word: u64) -> Result<(), String> {
        if word::answer(word) == 0 {
            let area = self.area.last(self.stands);
            if area[AREA..] != self.octets[AREA..self.stands] {
                return Err("octets past the area changed".to_string());
            }
            self.octets[..AREA].copy_from_slice(&area[..AREA]);
            return Ok(());
        }
        self.unchanged()
    }

    /// No octet of the area is another than it was.
    pub fn unchanged(&mut self) -> Result<(), String> {
        if *self.area.last(self.stands) == self.octets[..self.stands] {
            Ok(())
        } else {
            Err("octets of the area changed by a call that changes none".to_string())
        }
    }
}

/// The word and the message, if every octet of the buffer past it is as it was. A
/// refusal is its number alone.
fn seen(word: u64, buffer: &[u8], mark: u8) -> Result<Seen, String> {
    let message = word::handed(word).map(|octets| buffer[..octets].to_vec());
    let octets = message.as_ref().map_or(0, Vec::len);
    if buffer[octets..].iter().any(|octet| *octet != mark) {
        return Err(format!("word {word:#x}: octets of the buffer past the message changed"));
    }
    if word::answer(word) != 0 && word != u64::from(word::answer(word)) {
        return Err(format!("word {word:#x}: a refusal and more"));
    }
    Ok(Seen { word, message })
}
