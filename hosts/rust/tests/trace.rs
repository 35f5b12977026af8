//! The program `hyaloneth-trace` at its command line.

use std::io::Write;
use std::process::{Command, Output, Stdio};

fn trace(arguments: &[&str], input: &[u8]) -> Output {
    let mut child = Command::new(env!("CARGO_BIN_EXE_hyaloneth-trace"))
        .args(arguments)
        .stdin(Stdio::piped())
        .stdout(Stdio::piped())
        .stderr(Stdio::piped())
        .spawn()
        .unwrap();
    // A program that stops at its arguments reads nothing.
    let _ = child.stdin.take().unwrap().write_all(input);
    child.wait_with_output().unwrap()
}

fn printed(arguments: &[&str], input: &[u8]) -> Vec<u8> {
    let output = trace(arguments, input);
    assert!(output.status.success(), "{}", String::from_utf8_lossy(&output.stderr));
    assert!(output.stderr.is_empty());
    output.stdout
}

fn failed(arguments: &[&str], input: &[u8], status: i32) -> String {
    let output = trace(arguments, input);
    assert_eq!(output.status.code(), Some(status));
    assert!(output.stdout.is_empty());
    String::from_utf8(output.stderr).unwrap()
}

const SCRIPT: &[u8] = b"rack 2 boards 1 block 3 tokens\ndeliver 0\nbytes 13\n";
const BYTES: &[u8] = &[2, 1, 3, 0x13, 0, 4, 9, 0, 1, 0, 0x13];

#[test]
fn scripts_and_bytes_become_each_other() {
    assert_eq!(printed(&["assemble", "-"], SCRIPT), BYTES);
    assert_eq!(printed(&["disassemble", "-"], BYTES), SCRIPT);
    assert_eq!(printed(&["assemble", "-"], b""), b"");
    assert_eq!(printed(&["disassemble", "-"], b""), b"");
    // What is printable text may still be bytes.
    assert_eq!(
        printed(&["disassemble", "-"], b"rack 2 boards"),
        b"rack 114 boards 97 blocks 99 tokens\nbytes 6b 20 32 20 62 6f 61 72 64 73\n"
    );
}

/// The script assembles to these bytes, which rackrun answers with these lines.
fn is_input(script: &str, bytes: &str, lines: &str) {
    let bytes: Vec<u8> =
        bytes.split_whitespace().map(|byte| u8::from_str_radix(byte, 16).unwrap()).collect();
    assert_eq!(printed(&["assemble", "-"], script.as_bytes()), bytes);
    assert_eq!(printed(&["run", "--rackrun", "-"], &bytes), lines.as_bytes());
}

#[test]
fn the_listing_of_document_01() {
    is_input(
        include_str!("../../traces/listing.trace"),
        "02 01 03 \
         12 00 18 01 00 01 00 02 00 01 00 05 00 01 01 06 00 01 02 07 00 01 01 08 00 01 01 \
         13 00 04 09 00 01 00 \
         11 00 13 01 00 01 01 02 00 01 00 03 00 01 00 04 00 04 00 00 00 2A \
         10 00 0C 01 00 01 01 02 00 01 00 03 00 01 00 \
         10 00 0C 01 00 01 02 02 00 01 00 03 00 01 00",
        include_str!("../../../crates/rackrun/stdout"),
    );
}

#[test]
fn a_deliver_says_whom_it_served() {
    is_input(
        include_str!("../../traces/served.trace"),
        "0F 20 0F \
         12 00 18 01 00 01 00 02 00 01 1F 05 00 01 0F 06 00 01 01 07 00 01 00 08 00 01 00 \
         12 00 18 01 00 01 00 02 00 01 0A 05 00 01 03 06 00 01 01 07 00 01 00 08 00 01 01 \
         13 00 04 09 00 01 01 \
         13 00 04 09 00 01 00 \
         13 00 04 09 00 01 00",
        include_str!("../../traces/served.rackrun"),
    );
    is_input(
        include_str!("../../traces/served_home.trace"),
        "02 01 03 \
         12 00 18 01 00 01 00 02 00 01 00 05 00 01 01 06 00 01 01 07 00 01 00 08 00 01 00 \
         13 00 04 09 00 01 00 \
         12 00 18 01 00 01 01 02 00 01 00 05 00 01 00 06 00 01 01 07 00 01 00 08 00 01 00 \
         13 00 04 09 00 01 00",
        include_str!("../../traces/served_home.rackrun"),
    );
}

#[test]
fn loads_at_home() {
    is_input(
        include_str!("../../traces/home_loads.trace"),
        "02 01 03 \
         10 00 0C 01 00 01 00 02 00 01 00 03 00 01 00 \
         12 00 18 01 00 01 00 02 00 01 00 05 00 01 01 06 00 01 02 07 00 01 01 08 00 01 01 \
         10 00 0C 01 00 01 00 02 00 01 00 03 00 01 00 \
         13 00 04 09 00 01 00 \
         11 00 13 01 00 01 01 02 00 01 00 03 00 01 00 04 00 04 00 00 00 05 \
         12 00 18 01 00 01 01 02 00 01 00 05 00 01 00 06 00 01 01 07 00 01 00 08 00 01 00 \
         13 00 04 09 00 01 00 \
         10 00 0C 01 00 01 00 02 00 01 00 03 00 01 00 \
         12 00 18 01 00 01 01 02 00 01 00 05 00 01 00 06 00 01 01 07 00 01 01 08 00 01 01 \
         13 00 04 09 00 01 00 \
         10 00 0C 01 00 01 00 02 00 01 00 03 00 01 00 \
         11 00 13 01 00 01 00 02 00 01 00 03 00 01 00 04 00 04 00 00 00 01 \
         14 00 08 01 00 01 00 02 00 01 00 \
         15 00 08 01 00 01 00 02 00 01 00 \
         10 00 0C 01 00 01 03 02 00 01 00 03 00 01 00 \
         10 00 0C 01 00 01 00 02 00 01 01 03 00 01 00 \
         10 00 0C 01 00 01 00 02 00 01 00 03 00 01 08",
        include_str!("../../traces/home_loads.rackrun"),
    );
}

#[test]
fn bare_owners() {
    is_input(
        include_str!("../../traces/clean_owner.trace"),
        "02 01 03 \
         12 00 18 01 00 01 00 02 00 01 00 05 00 01 01 06 00 01 02 07 00 01 01 08 00 01 01 \
         13 00 04 09 00 01 00 \
         11 00 13 01 00 01 01 02 00 01 00 03 00 01 00 04 00 04 00 00 00 07 \
         12 00 18 01 00 01 01 02 00 01 00 05 00 01 00 06 00 01 02 07 00 01 01 08 00 01 00 \
         12 00 18 01 00 01 01 02 00 01 00 05 00 01 00 06 00 01 02 07 00 01 01 08 00 01 01 \
         13 00 04 09 00 01 00 \
         12 00 18 01 00 01 00 02 00 01 00 05 00 01 02 06 00 01 02 07 00 01 01 08 00 01 01 \
         13 00 04 09 00 01 00 \
         10 00 0C 01 00 01 02 02 00 01 00 03 00 01 00 \
         12 00 18 01 00 01 02 02 00 01 00 05 00 01 01 06 00 01 02 07 00 01 01 08 00 01 00 \
         12 00 18 01 00 01 02 02 00 01 00 05 00 01 00 06 00 01 02 07 00 01 01 08 00 01 00 \
         10 00 0C 01 00 01 02 02 00 01 00 03 00 01 00 \
         13 00 04 09 00 01 00 \
         10 00 0C 01 00 01 00 02 00 01 00 03 00 01 00 \
         12 00 18 01 00 01 00 02 00 01 00 05 00 01 01 06 00 01 01 07 00 01 00 08 00 01 01 \
         13 00 04 09 00 01 00 \
         10 00 0C 01 00 01 01 02 00 01 00 03 00 01 00",
        include_str!("../../traces/clean_owner.rackrun"),
    );
    is_input(
        include_str!("../../traces/bare_with_claims.trace"),
        "02 01 03 \
         12 00 18 01 00 01 00 02 00 01 00 05 00 01 01 06 00 01 02 07 00 01 01 08 00 01 01 \
         13 00 04 09 00 01 00 \
         14 00 08 01 00 01 02 02 00 01 00 \
         12 00 18 01 00 01 01 02 00 01 00 05 00 01 00 06 00 01 02 07 00 01 01 08 00 01 00 \
         16 00 08 01 00 01 01 02 00 01 00 \
         13 00 04 09 00 01 00 \
         15 00 08 01 00 01 02 02 00 01 00 \
         12 00 18 01 00 01 02 02 00 01 00 05 00 01 00 06 00 01 02 07 00 01 01 08 00 01 00 \
         13 00 04 09 00 01 00 \
         10 00 0C 01 00 01 00 02 00 01 00 03 00 01 00 \
         12 00 18 01 00 01 00 02 00 01 00 05 00 01 01 06 00 01 02 07 00 01 01 08 00 01 01 \
         13 00 04 09 00 01 00 \
         11 00 13 01 00 01 01 02 00 01 00 03 00 01 00 04 00 04 00 00 00 07 \
         14 00 08 01 00 01 02 02 00 01 00 \
         12 00 18 01 00 01 01 02 00 01 00 05 00 01 00 06 00 01 02 07 00 01 01 08 00 01 00 \
         16 00 08 01 00 01 01 02 00 01 00 \
         13 00 04 09 00 01 00 \
         15 00 08 01 00 01 02 02 00 01 00 \
         12 00 18 01 00 01 02 02 00 01 00 05 00 01 00 06 00 01 02 07 00 01 01 08 00 01 00",
        include_str!("../../traces/bare_with_claims.rackrun"),
    );
}

#[test]
fn the_letter_e() {
    is_input(
        include_str!("../../traces/exclusive.trace"),
        "02 01 03 \
         12 00 18 01 00 01 00 02 00 01 00 05 00 01 01 06 00 01 02 07 00 01 01 08 00 01 01 \
         13 00 04 09 00 01 00 \
         11 00 13 01 00 01 01 02 00 01 00 03 00 01 00 04 00 04 00 00 00 01 \
         12 00 18 01 00 01 01 02 00 01 00 05 00 01 00 06 00 01 02 07 00 01 01 08 00 01 01 \
         13 00 04 09 00 01 00 \
         12 00 18 01 00 01 00 02 00 01 00 05 00 01 01 06 00 01 02 07 00 01 01 08 00 01 01 \
         13 00 04 09 00 01 00 \
         12 00 18 01 00 01 01 02 00 01 00 05 00 01 02 06 00 01 01 07 00 01 00 08 00 01 01 \
         13 00 04 09 00 01 00 \
         12 00 18 01 00 01 02 02 00 01 00 05 00 01 01 06 00 01 01 07 00 01 00 08 00 01 00 \
         13 00 04 09 00 01 00 \
         11 00 13 01 00 01 01 02 00 01 00 03 00 01 00 04 00 04 00 00 00 01 \
         12 00 18 01 00 01 01 02 00 01 00 05 00 01 02 06 00 01 02 07 00 01 01 08 00 01 01 \
         13 00 04 09 00 01 00 \
         12 00 18 01 00 01 02 02 00 01 00 05 00 01 00 06 00 01 02 07 00 01 01 08 00 01 01 \
         13 00 04 09 00 01 00 \
         12 00 18 01 00 01 00 02 00 01 00 05 00 01 02 06 00 01 02 07 00 01 01 08 00 01 01 \
         13 00 04 09 00 01 00 \
         12 00 18 01 00 01 02 02 00 01 00 05 00 01 00 06 00 01 02 07 00 01 01 08 00 01 00 \
         13 00 04 09 00 01 00 \
         12 00 18 01 00 01 00 02 00 01 00 05 00 01 01 06 00 01 01 07 00 01 00 08 00 01 00 \
         13 00 04 09 00 01 00 \
         12 00 18 01 00 01 00 02 00 01 00 05 00 01 01 06 00 01 01 07 00 01 01 08 00 01 01 \
         13 00 04 09 00 01 00 \
         10 00 0C 01 00 01 01 02 00 01 00 03 00 01 00",
        include_str!("../../traces/exclusive.rackrun"),
    );
}

/// The letters of the boards, in each table of a block that `run --show` prints.
fn letters_shown(script: &str) -> Vec<String> {
    let out = String::from_utf8(printed(&["run", "--show", "-"], script.as_bytes())).unwrap();
    let mut tables: Vec<String> = Vec::new();
    for line in out.lines() {
        match line.split_whitespace().collect::<Vec<_>>()[..] {
            ["block", _, "plain", "owner", "valid", "letter", ..] => tables.push(String::new()),
            ["board", _, _, _, _, letter, ..] => tables.last_mut().unwrap().push_str(letter),
            _ => {}
        }
    }
    tables
}

#[test]
fn a_store_turns_the_letter_that_is_shown() {
    let listing = include_str!("../../traces/listing.trace");
    assert_eq!(letters_shown(listing), ["II", "II", "EI", "MI", "MI"]);
    let one_token = "rack 1 board 1 block 1 token\nraise 1 block 0\nforward home block 0\n\
                     deliver 0\nstore 1 block 0 word 0 = 0\n";
    assert_eq!(letters_shown(one_token), ["I", "I", "I", "E", "M"]);
}

#[test]
fn scripts_and_bytes_run_alike() {
    let lines = "\
0  rack 2 boards 1 block 3 tokens  done
1  deliver 0                       refused 14: no message
2  bytes 13                        refused 1: torn
";
    assert_eq!(printed(&["run", "-"], SCRIPT), lines.as_bytes());
    assert_eq!(printed(&["run", "-"], BYTES), lines.as_bytes());
    assert_eq!(printed(&["run", "--bytes", "-"], BYTES), lines.as_bytes());
    assert_eq!(printed(&["run", "--rackrun", "-"], SCRIPT), b"0 ok\n1 r14\n2 r1\n");
}

#[test]
fn openings_that_are_refused() {
    let short = b"0  fewer than three bytes  refused 1: torn\n";
    assert_eq!(printed(&["run", "-"], b""), short);
    assert_eq!(printed(&["run", "-"], &[2, 1]), short);
    assert_eq!(printed(&["run", "-"], b"bytes 02 01"), short);
    assert_eq!(printed(&["run", "--bytes", "-"], b"ab"), short);
    let size = b"0  rack 2 boards 1 block 1 token  refused 19: size\n";
    assert_eq!(printed(&["run", "--show", "-"], &[2, 1, 1]), size);
    assert_eq!(printed(&["run", "--rackrun", "-"], b""), b"0 r1\n");
    assert_eq!(printed(&["run", "--rackrun", "-"], &[2, 1, 1, 0x13]), b"0 r19\n");
}

#[test]
fn rackrun_reads_no_more_than_65536_bytes() {
    // 9,361 records end at byte 65,530. Of the next one 6 bytes are read, and of the last none.
    let mut bytes = vec![2, 1, 3];
    bytes.extend([0x13, 0, 4, 9, 0, 1, 0].repeat(9_363));
    let lines = String::from_utf8(printed(&["run", "--rackrun", "-"], &bytes)).unwrap();
    assert!(lines.ends_with("\n9361 r14\n9362 r1\n"));
}

#[test]
fn a_long_torn_step_is_shortened() {
    let mut bytes = vec![2, 1, 3, 0x12, 0xff, 0xff];
    bytes.extend([0xab; 100]);
    let out = String::from_utf8(printed(&["run", "-"], &bytes)).unwrap();
    let last = out.lines().last().unwrap();
    assert_eq!(last, "1  bytes 12 ff ff ab ab ab ab ab … (103 bytes)  refused 1: torn");
}

#[test]
fn wrong_scripts_and_files() {
    let error = failed(&["run", "-"], b"rack 2 boards 1 block 3 tokens\nload 1\n", 1);
    assert_eq!(error, "hyaloneth-trace: -: line 2: expected `block`, found the end of the line\n");
    let error = failed(&["assemble", "-"], &[0xff, 0xfe], 1);
    assert_eq!(error, "hyaloneth-trace: -: expected a script, but this is no UTF-8 text\n");
    let error = failed(&["run", "no/such/file"], b"", 1);
    assert!(error.starts_with("hyaloneth-trace: no/such/file: "), "{error}");
}

#[test]
fn wrong_command_lines_show_the_usage() {
    for arguments in [
        &[][..],
        &["walk", "-"],
        &["run"],
        &["run", "--shove", "-"],
        &["run", "--show", "--rackrun", "-"],
        &["assemble"],
        &["disassemble", "a", "b"],
    ] {
        let error = failed(arguments, b"", 2);
        assert!(error.contains("\n\nusage: hyaloneth-trace assemble FILE"), "{error}");
    }
    assert!(printed(&["--help"], b"").starts_with(b"usage: "));
}
