//! The paper sheet: calls and outcomes as lines of text (document 01, "The paper
//! sheet", with the decisions on its lines).

use std::io::{self, BufRead, Read, Write};

use crate::bench::Bench;
use crate::call::{Call, Outcome};
use crate::profile::{LONG_PROFILE, SHORT_PROFILE};

/// The bench that a sheet starts with.
pub const FIRST_PROFILE: [u8; SHORT_PROFILE] = [0x20, 0x04, 0x02, 0x04, 0x01];
/// Characters of a line before its line feed.
pub const MOST_CHARACTERS: usize = 2100;
/// The answer to a line of another form.
pub const BAD_LINE: &str = "ev=bad ans=3";

/// Answers each line as soon as it is read; a last line without a line feed is
/// answered too.
pub fn run(input: &mut impl BufRead, output: &mut impl Write) -> io::Result<()> {
    let mut bench = Bench::new(&FIRST_PROFILE).expect("the first profile is inside its limits");
    while let Some(line) = next_line(input)? {
        writeln!(output, "{}", answer_line(&mut bench, &line))?;
        output.flush()?;
    }
    Ok(())
}

/// The next line without its line feed, or none at the end of the input. What is
/// over the limit is skipped but for one octet, which tells that it was there: a
/// long line is one bad line, however long it is.
fn next_line(input: &mut impl BufRead) -> io::Result<Option<Vec<u8>>> {
    let mut line = Vec::new();
    let most = MOST_CHARACTERS as u64 + 1;
    if input.by_ref().take(most).read_until(b'\n', &mut line)? == 0 {
        return Ok(None);
    }
    if line.last() == Some(&b'\n') {
        line.pop();
    } else if line.len() > MOST_CHARACTERS {
        skip_line(input)?;
    }
    Ok(Some(line))
}

fn skip_line(input: &mut impl BufRead) -> io::Result<()> {
    loop {
        let buffer = input.fill_buf()?;
        if buffer.is_empty() {
            return Ok(());
        }
        let end = buffer.iter().position(|octet| *octet == b'\n');
        let skipped = end.map_or(buffer.len(), |end| end + 1);
        input.consume(skipped);
        if end.is_some() {
            return Ok(());
        }
    }
}

/// Plays one line, which has no line feed, and gives the line to print.
pub fn answer_line(bench: &mut Bench, line: &[u8]) -> String {
    match read_line(line) {
        None => BAD_LINE.to_string(),
        Some(call) => {
            let outcome = bench.play(&call);
            write_outcome(&call, &outcome)
        }
    }
}

// Reading.

/// The call of a line `ev=NAME arg=HEX`, or none for a line of another form.
pub fn read_line(line: &[u8]) -> Option<Call> {
    if line.len() > MOST_CHARACTERS {
        return None;
    }
    let line = std::str::from_utf8(line).ok()?;
    let (name, hex) = line.strip_prefix("ev=")?.split_once(" arg=")?;
    read_call(name, &read_hex(hex)?)
}

/// Pairs of capital hex digits.
fn read_hex(hex: &str) -> Option<Vec<u8>> {
    let digit = |character: u8| match character {
        b'0'..=b'9' => Some(character - b'0'),
        b'A'..=b'F' => Some(character - b'A' + 10),
        _ => None,
    };
    let pairs = hex.as_bytes().chunks(2);
    pairs.map(|pair| Some(digit(pair[0])? << 4 | digit(*pair.get(1)?)?)).collect()
}

/// Octets missing or to spare in fixed fields make a bad line; what is too long
/// in a tail goes to the call, which refuses it (decision on bad lines).
fn read_call(name: &str, octets: &[u8]) -> Option<Call> {
    let call = match (name, octets) {
        ("fresh", octets) if matches!(octets.len(), SHORT_PROFILE | LONG_PROFILE) => {
            Call::Fresh(octets.to_vec())
        }
        ("power", []) => Call::Power,
        ("command", [gid, oid, payload @ ..]) => {
            Call::Command { gid: *gid, oid: *oid, payload: payload.to_vec() }
        }
        ("send", [conn, message @ ..]) => Call::Send { conn: *conn, message: message.to_vec() },
        ("push", [conn]) => Call::Push(*conn),
        ("down", []) => Call::Down,
        ("consume", [conn]) => Call::Consume(*conn),
        ("credit", []) => Call::Credit,
        ("air", octets) if air_fields_fit(octets) => Call::Air(octets.to_vec()),
        ("reply", []) => Call::Reply,
        ("up", []) => Call::Up,
        ("report", [conn]) => Call::Report(*conn),
        ("read", octets) => Call::Read(octets.to_vec()),
        ("run", []) => Call::Run,
        _ => return None,
    };
    Some(call)
}

/// Kinds that aren't there go to the call whatever follows.
fn air_fields_fit(octets: &[u8]) -> bool {
    let Some(kind) = octets.first() else {
        return false;
    };
    match kind {
        1 => octets.len() >= 5,
        2 | 3 => octets.len() >= 4,
        4..=7 => octets.len() == 1,
        _ => true,
    }
}

// Writing.

/// The line of a call.
pub fn write_call(call: &Call) -> String {
    let octets = match call {
        Call::Fresh(profile) => profile.clone(),
        Call::Command { gid, oid, payload } => [&[*gid, *oid][..], payload].concat(),
        Call::Send { conn, message } => [&[*conn][..], message].concat(),
        Call::Push(conn) | Call::Consume(conn) | Call::Report(conn) => vec![*conn],
        Call::Air(octets) | Call::Read(octets) => octets.clone(),
        Call::Power | Call::Down | Call::Credit | Call::Reply | Call::Up | Call::Run => Vec::new(),
    };
    format!("ev={} arg={}", call.name(), hex(&octets))
}

/// The line that answers a call. A refused call has nothing to show but its
/// number. The lines of run, and no others, end with its moves.
pub fn write_outcome(call: &Call, outcome: &Outcome) -> String {
    let packets = [outcome.down.concat(), outcome.up.concat()].concat();
    let moves = match call {
        Call::Run => format!(" moves={}", outcome.moves),
        _ => String::new(),
    };
    format!(
        "ev={} ans={} drop={} rfu={:02X} pkt={} msg={}{moves}",
        call.name(),
        outcome.answer,
        u8::from(outcome.drop),
        outcome.rfu,
        hex(&packets),
        write_message(outcome.message.as_deref()),
    )
}

/// `-` for an empty message, nothing for none.
fn write_message(message: Option<&[u8]>) -> String {
    match message {
        None => String::new(),
        Some([]) => "-".to_string(),
        Some(octets) => hex(octets),
    }
}

pub fn hex(octets: &[u8]) -> String {
    octets.iter().map(|octet| format!("{octet:02X}")).collect()
}
