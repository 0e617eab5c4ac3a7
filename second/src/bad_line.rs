//! Lines that a sheet answers with `ev=bad ans=3`: every way in which a line can be
//! of another form (document 01, "The paper sheet", with the decisions on its lines).

use crate::call::Call;
use crate::player::Random;
use crate::sheet::{hex, read_line, write_call, MOST_CHARACTERS};

/// What is wrong with a line.
#[derive(Clone, Copy, Debug, PartialEq, Eq)]
pub enum Fault {
    Empty,
    CarriageReturn,
    Nul,
    /// An octet over 7F: no UTF-8, most of the time.
    NotAscii,
    SmallDigit,
    /// A character that stands beside the digits.
    NoDigit,
    OddDigits,
    SecondBlank,
    Before,
    After,
    NoEv,
    NoArg,
    UnknownName,
    /// A call of this name that has these octets alone, with fewer of them.
    Missing(&'static str, &'static [u8]),
    /// The same with more of them.
    Spare(&'static str, &'static [u8]),
    /// One character over the limit, and nothing else wrong.
    OneOver,
    /// Far over the limit, and nothing else wrong.
    FarOver,
    /// At the limit, with octets to spare.
    AtLimit,
    /// One character removed, put in or changed.
    Slip,
    /// Octets of any kind, now and then more than a line may have.
    Noise,
}

/// All of them. Those of octets missing or to spare stand for each call that has a
/// number of octets of its own, `air` by its kinds.
pub const FAULTS: [Fault; 43] = [
    Fault::Empty,
    Fault::CarriageReturn,
    Fault::Nul,
    Fault::NotAscii,
    Fault::SmallDigit,
    Fault::NoDigit,
    Fault::OddDigits,
    Fault::SecondBlank,
    Fault::Before,
    Fault::After,
    Fault::NoEv,
    Fault::NoArg,
    Fault::UnknownName,
    Fault::OneOver,
    Fault::FarOver,
    Fault::AtLimit,
    Fault::Slip,
    Fault::Noise,
    Fault::Missing("fresh", &[0x20, 4, 2, 4, 1]),
    Fault::Missing("fresh", &[0x20, 1, 1, 255, 8, 4, 2, 4, 2, 4, 1]),
    Fault::Missing("command", &[0, 0]),
    Fault::Missing("send", &[2]),
    Fault::Missing("push", &[2]),
    Fault::Missing("consume", &[2]),
    Fault::Missing("report", &[2]),
    Fault::Missing("air", &[1, 1, 4, 0, 2]),
    Fault::Missing("air", &[2, 1, 4, 0]),
    Fault::Missing("air", &[3, 1, 4, 0x80]),
    Fault::Spare("fresh", &[0x20, 4, 2, 4, 1]),
    Fault::Spare("fresh", &[0x20, 1, 1, 255, 8, 4, 2, 4, 2, 4, 1]),
    Fault::Spare("power", &[]),
    Fault::Spare("push", &[2]),
    Fault::Spare("down", &[]),
    Fault::Spare("consume", &[2]),
    Fault::Spare("credit", &[]),
    Fault::Spare("air", &[4]),
    Fault::Spare("air", &[5]),
    Fault::Spare("air", &[6]),
    Fault::Spare("air", &[7]),
    Fault::Spare("reply", &[]),
    Fault::Spare("up", &[]),
    Fault::Spare("report", &[2]),
    Fault::Spare("run", &[]),
];

/// A bad line. Where the fault allows it, it is the line of this call but for the
/// fault: a bench that overlooks the fault makes the call.
pub fn bad_line(random: &mut Random, fault: Fault, call: &Call) -> Vec<u8> {
    let good = write_call(call).into_bytes();
    let line = match fault {
        Fault::Empty => Vec::new(),
        Fault::CarriageReturn => put_in(random, &good, b'\r'),
        Fault::Nul => put_in(random, &good, 0),
        Fault::NotAscii => {
            let octet = random.octet() | 0x80;
            put_in(random, &good, octet)
        }
        Fault::SmallDigit => small_digit(random, call),
        Fault::NoDigit => no_digit(random, call),
        Fault::OddDigits => odd_digits(random, good),
        Fault::SecondBlank => second_blank(random, &good),
        Fault::Before => [random.pick(&[" ", "\t", "x", "0", "ev=", "\u{FEFF}"]).as_bytes(), &good].concat(),
        Fault::After => {
            [&good, random.pick(&[" ", "\t", "#", ";", " arg=", " ev=up arg="]).as_bytes()].concat()
        }
        Fault::NoEv => no_ev(random, &good),
        Fault::NoArg => no_arg(random, &good),
        Fault::UnknownName => unknown_name(random, call),
        Fault::Missing(name, octets) => fewer(random, name, octets),
        Fault::Spare(name, octets) => {
            let count = random.pick(&[1, 1, 2, 3, 4, 5, 255, 1000]);
            form(name, &[octets, &random.octets(count)].concat())
        }
        Fault::OneOver => of_length(random, "command", MOST_CHARACTERS + 1),
        Fault::FarOver => {
            let more = random.pick(&[2, 100, 2000, 4096, 10_000]);
            of_length(random, "send", MOST_CHARACTERS + more)
        }
        Fault::AtLimit => of_length(random, "down", MOST_CHARACTERS),
        Fault::Slip => slip(random, &good),
        Fault::Noise => noise(random),
    };
    assert!(read_line(&line).is_none(), "{fault:?} made a good line");
    assert!(!line.contains(&b'\n'), "{fault:?} made two lines");
    line
}

fn form(name: &str, octets: &[u8]) -> Vec<u8> {
    format!("ev={name} arg={}", hex(octets)).into_bytes()
}

/// Fewer octets than these. Five of a long profile are one too, and are left out.
fn fewer(random: &mut Random, name: &str, octets: &[u8]) -> Vec<u8> {
    loop {
        let line = form(name, &octets[..random.below(octets.len())]);
        if read_line(&line).is_none() {
            return line;
        }
    }
}

/// A line of so many characters, or one fewer, with as many octets as go into it.
fn of_length(random: &mut Random, name: &str, characters: usize) -> Vec<u8> {
    let count = (characters - form(name, &[]).len()) / 2;
    let octets = random.octets(count);
    form(name, &octets)
}

/// The line with an octet at its end, most of the time, or somewhere in it.
fn put_in(random: &mut Random, line: &[u8], octet: u8) -> Vec<u8> {
    let place = if random.chance(50) { line.len() } else { random.below(line.len() + 1) };
    [&line[..place], &[octet], &line[place..]].concat()
}

/// The call's name and octets, or those of a command where it has none.
fn with_octets(call: &Call) -> Vec<u8> {
    let line = write_call(call).into_bytes();
    if line.ends_with(b"=") {
        form("command", &[0, 0, 1])
    } else {
        line
    }
}

/// Where the digits of a line start.
fn digits_at(line: &[u8]) -> usize {
    line.iter().rposition(|octet| *octet == b'=').expect("a line has fields") + 1
}

fn small_digit(random: &mut Random, call: &Call) -> Vec<u8> {
    let mut line = with_octets(call);
    let at = digits_at(&line);
    let letters: Vec<usize> = (at..line.len()).filter(|place| line[*place] > b'9').collect();
    if letters.is_empty() {
        let place = at + random.below(line.len() - at);
        line[place] = random.pick(b"abcdef");
    } else {
        let place = random.pick(&letters);
        line[place] = line[place].to_ascii_lowercase();
    }
    line
}

fn no_digit(random: &mut Random, call: &Call) -> Vec<u8> {
    let mut line = with_octets(call);
    let at = digits_at(&line);
    let place = at + random.below(line.len() - at);
    line[place] = random.pick(b"/:@G`gxOl+-., ");
    line
}

fn odd_digits(random: &mut Random, mut line: Vec<u8>) -> Vec<u8> {
    if line.ends_with(b"=") || random.chance(50) {
        line.push(random.pick(b"0123456789ABCDEF"));
    } else {
        line.pop();
    }
    line
}

fn second_blank(random: &mut Random, line: &[u8]) -> Vec<u8> {
    let blank = line.iter().position(|octet| *octet == b' ').expect("a line has a blank");
    let signs = line.iter().enumerate().filter(|(_, octet)| **octet == b'=').map(|(place, _)| place + 1);
    let places: Vec<usize> = signs.chain([blank, blank + 1]).collect();
    let place = random.pick(&places);
    [&line[..place], b" ", &line[place..]].concat()
}

fn parts(line: &[u8]) -> (&str, &str) {
    let line = std::str::from_utf8(line).expect("a call's line is ASCII");
    line.strip_prefix("ev=").and_then(|rest| rest.split_once(" arg=")).expect("a call's line has two fields")
}

fn no_ev(random: &mut Random, line: &[u8]) -> Vec<u8> {
    let (name, digits) = parts(line);
    let before = random.pick(&["", "Ev=", "ev", "ev:", "event=", "e=", "=", "arg="]);
    if random.chance(20) {
        format!("arg={digits} ev={name}").into_bytes()
    } else {
        format!("{before}{name} arg={digits}").into_bytes()
    }
}

fn no_arg(random: &mut Random, line: &[u8]) -> Vec<u8> {
    let (name, digits) = parts(line);
    let between = random.pick(&["", " ", " arg", " Arg=", " arg:", "arg=", "\targ=", " ar=", " arg=="]);
    if between.len() < 5 && random.chance(50) {
        format!("ev={name}{between}").into_bytes()
    } else {
        format!("ev={name}{between}{digits}").into_bytes()
    }
}

fn unknown_name(random: &mut Random, call: &Call) -> Vec<u8> {
    let (line, name) = (write_call(call), call.name());
    let (_, digits) = parts(line.as_bytes());
    let capital = name[..1].to_uppercase() + &name[1..];
    let other = [&capital, &name.to_uppercase(), &name[1..], &name[..name.len() - 1], "", "bad", "rest"];
    let longer = [format!("{name}s"), format!("nci_{name}"), format!("{name}{name}"), format!("{name}=")];
    let any =
        if random.chance(60) { random.pick(&other).to_string() } else { longer[random.below(4)].clone() };
    format!("ev={any} arg={digits}").into_bytes()
}

/// A slip of the hand that makes another call, or leaves the line as it is, is made
/// again.
fn slip(random: &mut Random, good: &[u8]) -> Vec<u8> {
    loop {
        let mut line = good.to_vec();
        let place = random.below(line.len());
        match random.below(3) {
            0 => drop(line.remove(place)),
            1 => line.insert(place, printable(random)),
            _ => line[place] = printable(random),
        }
        if read_line(&line).is_none() {
            return line;
        }
    }
}

fn printable(random: &mut Random) -> u8 {
    b' ' + random.below(95) as u8
}

fn noise(random: &mut Random) -> Vec<u8> {
    let count = random.pick(&[1, 2, 5, 10, 20, 40, MOST_CHARACTERS, MOST_CHARACTERS + 1, 3000]);
    let mut octets = random.octets(count);
    for octet in &mut octets {
        if *octet == b'\n' || random.chance(30) {
            *octet = random.pick(b"ev= arg=0");
        }
    }
    octets
}
