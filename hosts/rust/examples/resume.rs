//! Keeps a record in a file from one run to the next, and says why where it cannot be taken up. Board 1
//! counts the runs in word 0 of block 0. `hosts/c/resume.c` is the same program in C: each goes on with
//! what the other has kept.

use hyaloneth::{Record, Refusal, Reply, Step, View};
use std::io::ErrorKind;
use std::process::ExitCode;

/// A new rack: board 1 gets the block, so it may load and store.
fn opened() -> Result<Vec<u8>, Refusal> {
    let mut buffer = vec![0; Record::len_for(1)?];
    let mut rack = Record::open(&mut buffer, 2, 1, 3)?;
    let whole = Step::Send { component: 0, block: 0, target: 1, plain: 2, owner: true, data: true };
    rack.step(&whole)?;
    rack.step(&Step::Deliver { position: 0 })?;
    Ok(buffer)
}

/// Why these bytes cannot be taken up, if they cannot.
fn fault(kept: &[u8]) -> Option<String> {
    View::of(kept).err()?;
    Some(match View::format_of(kept) {
        None => "no record, or one of a version without formats".into(),
        Some(Record::FORMAT) => "a record of this engine's format, cut short or damaged".into(),
        Some(format) => format!("a record of format {format}, this engine has {}", Record::FORMAT),
    })
}

/// Board 1 counts one more run.
fn count(buffer: &mut [u8]) -> Result<u32, Refusal> {
    let mut rack = Record::over(buffer);
    let runs = match rack.step(&Step::Load { component: 1, block: 0, word: 0 })? {
        Reply::Word(word) => word.wrapping_add(1),
        _ => 1,
    };
    rack.step(&Step::Store { component: 1, block: 0, word: 0, value: runs })?;
    Ok(runs)
}

fn resume(file: &str) -> Result<u32, String> {
    let refused = |refusal: Refusal| format!("a step was refused {}", refusal.number());
    let mut buffer = match std::fs::read(file) {
        Ok(kept) => match fault(&kept) {
            Some(fault) => return Err(fault),
            None => kept,
        },
        Err(error) if error.kind() == ErrorKind::NotFound => opened().map_err(refused)?,
        Err(error) => return Err(error.to_string()),
    };
    let runs = count(&mut buffer).map_err(refused)?;
    std::fs::write(file, buffer).map_err(|error| error.to_string())?;
    Ok(runs)
}

fn main() -> ExitCode {
    let Some(file) = std::env::args().nth(1) else {
        eprintln!("usage: resume FILE, where the record is kept");
        return ExitCode::from(2);
    };
    match resume(&file) {
        Ok(runs) => {
            println!("run {runs}");
            ExitCode::SUCCESS
        }
        Err(message) => {
            eprintln!("{file}: {message}");
            ExitCode::FAILURE
        }
    }
}
