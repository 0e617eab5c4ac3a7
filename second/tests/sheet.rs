//! The paper sheet.

mod common;
use common::{PROFILE, UNLIKE};
use exam_bench::bench::Bench;
use exam_bench::call::{Call, Outcome};
use exam_bench::sheet;
use std::io::{BufReader, Read, Write};

fn printed(input: &[u8]) -> String {
    let mut output = Vec::new();
    sheet::run(&mut BufReader::new(input), &mut output).unwrap();
    String::from_utf8(output).unwrap()
}

/// The line printed for one line on a fresh bench.
fn answer(line: &str) -> String {
    sheet::answer_line(&mut Bench::new(PROFILE).unwrap(), line.as_bytes())
}

fn is_bad(line: &str) -> bool {
    answer(line) == "ev=bad ans=3"
}

#[test]
fn the_example_of_three_lines() {
    let input = b"ev=command arg=000001\nev=down arg=\nev=push arg=02\n";
    let expected = "ev=command ans=0 drop=0 rfu=00 pkt=20000101 msg=\n\
                    ev=down ans=0 drop=0 rfu=00 pkt=400001006000050201200000 msg=\n\
                    ev=push ans=6 drop=0 rfu=00 pkt= msg=\n";
    assert_eq!(printed(input), expected);
    assert_eq!(printed(&input[..input.len() - 1]), expected);
}

#[test]
fn an_empty_message_is_a_dash_and_report_shows_its_octets() {
    let lines = [
        ("ev=command arg=000000", "ev=command ans=0 drop=0 rfu=00 pkt=20000100 msg="),
        ("ev=down arg=", "ev=down ans=0 drop=0 rfu=00 pkt=400001006000050200200000 msg="),
        ("ev=up arg=", "ev=up ans=0 drop=0 rfu=00 pkt= msg="),
        ("ev=up arg=", "ev=up ans=0 drop=0 rfu=00 pkt= msg="),
        ("ev=command arg=00010000", "ev=command ans=0 drop=0 rfu=00 pkt=2001020000 msg="),
        ("ev=down arg=", "ev=down ans=0 drop=0 rfu=00 pkt=40011000000000000400002000000000010100 msg="),
        ("ev=up arg=", "ev=up ans=0 drop=0 rfu=00 pkt= msg="),
        ("ev=command arg=00040100", "ev=command ans=0 drop=0 rfu=00 pkt=2004020100 msg="),
        ("ev=down arg=", "ev=down ans=0 drop=0 rfu=00 pkt=40040400040202 msg="),
        ("ev=report arg=02", "ev=report ans=0 drop=0 rfu=00 pkt= msg=0000000002"),
        ("ev=up arg=", "ev=up ans=0 drop=0 rfu=00 pkt= msg="),
        ("ev=send arg=02", "ev=send ans=0 drop=0 rfu=00 pkt= msg="),
        ("ev=push arg=02", "ev=push ans=0 drop=0 rfu=00 pkt=020000 msg="),
        ("ev=down arg=", "ev=down ans=0 drop=0 rfu=00 pkt= msg="),
        ("ev=consume arg=02", "ev=consume ans=0 drop=0 rfu=00 pkt=020100 msg=-"),
        ("ev=up arg=", "ev=up ans=0 drop=0 rfu=00 pkt= msg=-"),
        ("ev=credit arg=", "ev=credit ans=8 drop=0 rfu=00 pkt= msg="),
        ("ev=air arg=08", "ev=air ans=11 drop=0 rfu=00 pkt= msg="),
    ];
    let input: String = lines.iter().map(|line| format!("{}\n", line.0)).collect();
    let expected: String = lines.iter().map(|line| format!("{}\n", line.1)).collect();
    assert_eq!(printed(input.as_bytes()), expected);
}

#[test]
fn lines_of_another_form() {
    for line in [
        "",
        " ",
        "ev=down",
        "ev=down ",
        "ev=down arg",
        "ev=down  arg=",
        " ev=down arg=",
        "ev=down arg= ",
        "ev=down arg=\r",
        "EV=down arg=",
        "ev=Down arg=",
        "ev=downs arg=",
        "ev= arg=",
        "arg= ev=down",
        "ev=push arg=0a",
        "ev=push arg=2",
        "ev=push arg=002",
        "ev=push arg=0G",
        "ev=push arg=0 2",
        "ev=push arg=02 arg=02",
        "ev=push arg=+2",
        "ev=push arg=é",
        "ev=bad arg=",
        "ev=down\targ=",
        "ev=rest arg=",
        "ev=run",
        "ev=Run arg=",
        "ev=run moves=",
        "ev=read",
        "ev=Read arg=20C000",
        "ev=read arg=20C00",
        "ev=read arg=20c000",
        "ev=read arg=20 C0 00",
    ] {
        assert!(is_bad(line), "{line:?}");
    }
    let mut bench = Bench::new(PROFILE).unwrap();
    assert_eq!(sheet::answer_line(&mut bench, b"ev=down arg=\xFF"), "ev=bad ans=3");
}

#[test]
fn octets_missing_or_to_spare_in_fixed_fields() {
    for line in [
        "ev=fresh arg=",
        "ev=fresh arg=20040204",
        "ev=fresh arg=200402040104",
        "ev=fresh arg=20040204020402040204",
        "ev=fresh arg=200402040204020402040104",
        "ev=power arg=00",
        "ev=command arg=",
        "ev=command arg=00",
        "ev=send arg=",
        "ev=push arg=",
        "ev=push arg=0200",
        "ev=down arg=00",
        "ev=consume arg=",
        "ev=consume arg=0200",
        "ev=credit arg=00",
        "ev=air arg=",
        "ev=air arg=01010400",
        "ev=air arg=020104",
        "ev=air arg=030104",
        "ev=air arg=0400",
        "ev=air arg=0500",
        "ev=air arg=0600",
        "ev=air arg=0700",
        "ev=reply arg=00",
        "ev=up arg=00",
        "ev=report arg=",
        "ev=report arg=0200",
        "ev=run arg=00",
        "ev=run arg=02",
    ] {
        assert!(is_bad(line), "{line:?}");
    }
    for line in [
        "ev=fresh arg=2004020401",
        "ev=fresh arg=2004020402040204020401",
        "ev=power arg=",
        "ev=command arg=0000",
        "ev=send arg=02",
        "ev=push arg=02",
        "ev=down arg=",
        "ev=consume arg=02",
        "ev=credit arg=",
        "ev=air arg=0101040002",
        "ev=air arg=02010400",
        "ev=air arg=03010480",
        "ev=air arg=04",
        "ev=air arg=05",
        "ev=air arg=06",
        "ev=air arg=07",
        "ev=air arg=08",
        "ev=reply arg=",
        "ev=up arg=",
        "ev=report arg=02",
        "ev=read arg=",
        "ev=read arg=20",
        "ev=read arg=20C000",
        "ev=read arg=20C000FF",
        "ev=run arg=",
    ] {
        assert!(!is_bad(line), "{line:?}");
    }
}

/// Ones behind a control payload are a profile wherever their number is that of one.
#[test]
fn fresh_has_five_octets_or_eleven() {
    for count in 0..=300 {
        let line = format!("ev=fresh arg={}", "20".to_string() + &"01".repeat(count));
        assert_eq!(is_bad(&line), count != 4 && count != 10, "{}", count + 1);
    }
}

#[test]
fn what_is_too_long_in_a_tail_goes_to_the_call() {
    let refused = |name: &str| format!("ev={name} ans=3 drop=0 rfu=00 pkt= msg=");
    assert_eq!(answer(&format!("ev=send arg=02{}", "00".repeat(1025))), refused("send"));
    assert_eq!(answer(&format!("ev=command arg=0000{}", "00".repeat(256))), refused("command"));
    assert_eq!(answer(&format!("ev=air arg=0101040002{}", "00".repeat(33))), refused("air"));
    assert_eq!(answer(&format!("ev=air arg=08{}", "00".repeat(1025))), refused("air"));
    for octets in ["00", "09", "FF", "0900", "00010400"] {
        assert_eq!(answer(&format!("ev=air arg={octets}")), refused("air"));
    }
    assert_eq!(answer("ev=fresh arg=0004020401"), refused("fresh"));
    assert_eq!(answer("ev=fresh arg=2004020402040904020401"), refused("fresh"));
    assert_eq!(answer("ev=command arg=1000"), refused("command"));
    assert_eq!(answer("ev=push arg=01"), refused("push"));
    assert_eq!(answer(&format!("ev=read arg={}", "00".repeat(259))), refused("read"));
}

/// Octets of any number: 1,044 are as many as a line has room for.
#[test]
fn read_shows_the_drop_flag_and_the_reserved_bits_alone() {
    let line = |octets: usize| format!("ev=read arg=40C0FF{}", "00".repeat(octets - 3));
    assert_eq!(answer(&line(258)), "ev=read ans=0 drop=0 rfu=C0 pkt= msg=");
    assert_eq!(answer(&line(257)), "ev=read ans=0 drop=1 rfu=00 pkt= msg=");
    assert_eq!(answer(&line(1044)), "ev=read ans=3 drop=0 rfu=00 pkt= msg=");
    assert!(is_bad(&line(1045)));
    assert_eq!(answer("ev=read arg="), "ev=read ans=0 drop=1 rfu=00 pkt= msg=");
    assert_eq!(answer("ev=read arg=00AB00"), "ev=read ans=0 drop=0 rfu=A8 pkt= msg=");
}

/// The lines of run alone have moves, at rest too, and no packets.
#[test]
fn run_shows_how_many_moves_it_made() {
    let lines = [
        ("ev=run arg=", "ev=run ans=0 drop=0 rfu=00 pkt= msg= moves=0"),
        ("ev=command arg=000001", "ev=command ans=0 drop=0 rfu=00 pkt=20000101 msg="),
        ("ev=run arg=", "ev=run ans=0 drop=0 rfu=00 pkt= msg= moves=3"),
        ("ev=command arg=00010000", "ev=command ans=0 drop=0 rfu=00 pkt=2001020000 msg="),
        ("ev=run arg=", "ev=run ans=0 drop=0 rfu=00 pkt= msg= moves=2"),
        ("ev=command arg=00040100", "ev=command ans=0 drop=0 rfu=00 pkt=2004020100 msg="),
        ("ev=run arg=", "ev=run ans=0 drop=0 rfu=00 pkt= msg= moves=2"),
        ("ev=send arg=020102030405", "ev=send ans=0 drop=0 rfu=00 pkt= msg="),
        ("ev=run arg=", "ev=run ans=0 drop=0 rfu=00 pkt= msg=0102030405 moves=7"),
        ("ev=run arg=", "ev=run ans=0 drop=0 rfu=00 pkt= msg=0102030405 moves=1"),
        ("ev=send arg=02", "ev=send ans=0 drop=0 rfu=00 pkt= msg="),
        ("ev=run arg=", "ev=run ans=0 drop=0 rfu=00 pkt= msg=- moves=3"),
        ("ev=run arg=", "ev=run ans=0 drop=0 rfu=00 pkt= msg=- moves=1"),
        ("ev=run arg=", "ev=run ans=0 drop=0 rfu=00 pkt= msg= moves=0"),
        ("ev=up arg=", "ev=up ans=8 drop=0 rfu=00 pkt= msg="),
        ("ev=run arg=00", "ev=bad ans=3"),
    ];
    let input: String = lines.iter().map(|line| format!("{}\n", line.0)).collect();
    let expected: String = lines.iter().map(|line| format!("{}\n", line.1)).collect();
    assert_eq!(printed(input.as_bytes()), expected);
    // a refusal, which concerns octets, and a drop
    let refused = Outcome { answer: 2, ..Outcome::default() };
    let shown = sheet::write_outcome(&Call::Run, &refused);
    assert_eq!(shown, "ev=run ans=2 drop=0 rfu=00 pkt= msg= moves=0");
    let dropping = Outcome { drop: true, moves: 27_877, ..Outcome::default() };
    let shown = sheet::write_outcome(&Call::Run, &dropping);
    assert_eq!(shown, "ev=run ans=0 drop=1 rfu=00 pkt= msg= moves=27877");
}

#[test]
fn a_line_of_2100_characters_is_read_and_one_of_2101_is_bad() {
    let line = |characters: usize| {
        let head = "ev=send arg=";
        format!("{head}{}", "0".repeat(characters - head.len()))
    };
    assert_eq!(answer(&line(2100)), "ev=send ans=3 drop=0 rfu=00 pkt= msg=");
    assert!(is_bad(&line(2101)));
    assert!(is_bad(&line(2102)));
    for length in [2100, 2101, 2102, 4200, 4202, 100_000] {
        let expected = if length == 2100 { "ev=send ans=3 drop=0 rfu=00 pkt= msg=" } else { "ev=bad ans=3" };
        let input = format!("{}\nev=down arg=\n", line(length));
        assert_eq!(printed(input.as_bytes()), format!("{expected}\nev=down ans=8 drop=0 rfu=00 pkt= msg=\n"));
        assert_eq!(printed(line(length).as_bytes()), format!("{expected}\n"));
    }
}

#[test]
fn empty_lines_are_bad_and_the_end_of_input_is_no_line() {
    assert_eq!(printed(b""), "");
    assert_eq!(printed(b"\n"), "ev=bad ans=3\n");
    assert_eq!(
        printed(b"\n\nev=up arg="),
        "ev=bad ans=3\nev=bad ans=3\nev=up ans=8 drop=0 rfu=00 pkt= msg=\n"
    );
}

#[test]
fn a_bad_line_changes_nothing() {
    let mut bench = Bench::new(PROFILE).unwrap();
    sheet::answer_line(&mut bench, b"ev=command arg=000001");
    let before = bench.clone();
    for line in ["ev=down arg=00", "", "ev=power arg= "] {
        assert_eq!(sheet::answer_line(&mut bench, line.as_bytes()), "ev=bad ans=3");
    }
    assert_eq!(bench, before);
}

#[test]
fn every_call_reads_back_from_its_line() {
    let calls = [
        Call::Fresh(PROFILE.to_vec()),
        Call::Fresh(UNLIKE.to_vec()),
        Call::Power,
        Call::Command { gid: 0, oid: 63, payload: vec![1, 2, 0xFF] },
        Call::Send { conn: 2, message: vec![] },
        Call::Send { conn: 0, message: vec![0xAB; 1025] },
        Call::Push(5),
        Call::Down,
        Call::Consume(0),
        Call::Credit,
        Call::Air(vec![1, 1, 4, 0, 2, 0xEE]),
        Call::Reply,
        Call::Up,
        Call::Report(255),
        Call::Read(vec![]),
        Call::Read(vec![0xAB; 1044]),
        Call::Run,
    ];
    for call in calls {
        assert_eq!(sheet::read_line(sheet::write_call(&call).as_bytes()), Some(call));
    }
}

#[test]
fn the_program_answers_each_line_as_soon_as_it_is_read() {
    let mut program = std::process::Command::new(env!("CARGO_BIN_EXE_play"))
        .stdin(std::process::Stdio::piped())
        .stdout(std::process::Stdio::piped())
        .spawn()
        .unwrap();
    let mut input = program.stdin.take().unwrap();
    let mut output = program.stdout.take().unwrap();
    for (line, expected) in [
        ("ev=command arg=000001\n", "ev=command ans=0 drop=0 rfu=00 pkt=20000101 msg=\n"),
        ("\n", "ev=bad ans=3\n"),
        ("ev=down arg=\n", "ev=down ans=0 drop=0 rfu=00 pkt=400001006000050201200000 msg=\n"),
    ] {
        input.write_all(line.as_bytes()).unwrap();
        input.flush().unwrap();
        let mut answer = vec![0; expected.len()];
        output.read_exact(&mut answer).unwrap();
        assert_eq!(String::from_utf8(answer).unwrap(), expected);
    }
    input.write_all(b"ev=push arg=02").unwrap();
    drop(input);
    let mut rest = String::new();
    output.read_to_string(&mut rest).unwrap();
    assert_eq!(rest, "ev=push ans=6 drop=0 rfu=00 pkt= msg=\n");
    assert!(program.wait().unwrap().success());
}
