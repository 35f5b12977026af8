//! Prints every figure of the records in a file, which stand there one after the other, and the state
//! letters. `tests/view_compare.c` writes such a file and prints the same lines by the view in C.

use hyaloneth::{Boards, Owner, Record, Refusal, View};
use std::fmt::Write;
use std::process::ExitCode;

fn words(words: &[u32; 8]) -> String {
    words.iter().map(|word| format!(" {word:08x}")).collect()
}

/// Whether the owner is there, and whether it is dirty.
fn owner(owner: Owner) -> String {
    format!("{} {}", u32::from(owner.is_present()), u32::from(owner.is_dirty()))
}

fn bits(boards: Boards) -> u32 {
    boards.iter().fold(0, |set, board| set | 1 << board)
}

/// The figures of one record, its format first.
fn figures(format: u8, view: &View) -> Result<String, std::fmt::Error> {
    let mut out = String::new();
    let (n, b, t) = (view.boards(), view.blocks(), view.tokens());
    let (in_flight, len) = (view.messages().len(), view.record_len());
    writeln!(out, "record {format} {n} {b} {t} {in_flight} {len}")?;
    for m in view.messages() {
        let (owner, data) = (owner(m.owner), u32::from(m.data));
        let carried = words(&m.words);
        let (sender, target, block, plain) = (m.sender, m.target, m.block, m.plain);
        writeln!(out, "message {sender} {target} {block} {plain} {owner} {data}{carried}")?;
    }
    for block in 0..b {
        let waiting = view.waiting(block).map_or(0, bits);
        writeln!(out, "block {block} {waiting:04x} {}", view.active(block).unwrap_or(0))?;
        for component in 0..=n {
            let cell = view.cell(component, block).ok_or(std::fmt::Error)?;
            let (owner, valid) = (owner(cell.owner), u32::from(cell.valid));
            write!(
                out,
                "cell {} {owner} {} {valid}{}",
                cell.plain,
                cell.held(),
                words(&cell.words)
            )?;
            match (view.barring(component, block), view.letter(component, block)) {
                (Some(barring), Some(letter)) => writeln!(out, " {:04x} {letter}", bits(barring))?,
                _ => writeln!(out)?,
            }
        }
    }
    Ok(out)
}

/// What is wrong with bytes that are refused.
fn fault(bytes: &[u8], refusal: Refusal) -> String {
    match View::format_of(bytes) {
        None | Some(Record::FORMAT) => format!("a record is {refusal}"),
        Some(other) => format!("a record of format {other}, this engine has {}", Record::FORMAT),
    }
}

fn print(file: &str) -> Result<(), String> {
    let bytes = std::fs::read(file).map_err(|error| format!("{file}: {error}"))?;
    let mut rest = &bytes[..];
    while !rest.is_empty() {
        let view = View::of(rest).map_err(|refusal| format!("{file}: {}", fault(rest, refusal)))?;
        let format = View::format_of(rest).unwrap_or(0);
        print!("{}", figures(format, &view).map_err(|error| format!("{file}: {error}"))?);
        rest = &rest[view.record_len()..];
    }
    Ok(())
}

fn main() -> ExitCode {
    let Some(file) = std::env::args().nth(1) else {
        eprintln!("usage: figures FILE, a file of records");
        return ExitCode::from(2);
    };
    match print(&file) {
        Ok(()) => ExitCode::SUCCESS,
        Err(message) => {
            eprintln!("{message}");
            ExitCode::FAILURE
        }
    }
}
