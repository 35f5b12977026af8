//! The benchmark: the proved engine beside two engines in Rust and the model, on the same seeded lists, as a table in Markdown.
//!
//! `hyl_step` and `hyl_letter` decide soundness at every call, `hyl_run` once for the list; so do all of them. `tuned` has a layout of its own, `best` the engine's.

mod engines;
mod instructions;
mod rows;
mod times;

use std::process::ExitCode;

#[derive(Clone, Copy, PartialEq, Eq)]
enum Call {
    Step,
    Run,
    Letter,
}

impl Call {
    fn name(self) -> &'static str {
        match self {
            Call::Step => "hyl_step",
            Call::Run => "hyl_run",
            Call::Letter => "hyl_letter",
        }
    }
}

/// The first columns of a row.
fn state(row: &rows::Row) -> String {
    let (boards, blocks, tokens) = row.sizes;
    let accepted = 100 * row.accepted / row.steps();
    format!("| {boards}, {blocks}, {tokens} | {} | {:.1} | {:.1} | {:.0}% | {accepted}% |", row.name, row.in_flight, row.copies, row.barred)
}

fn main() -> ExitCode {
    let arguments: Vec<String> = std::env::args().skip(1).collect();
    let result = match arguments.iter().map(String::as_str).collect::<Vec<_>>()[..] {
        [] => {
            times::table();
            Ok(())
        }
        ["--instructions", out] => instructions::table(out),
        _ => Err("no arguments, or --instructions and the name that valgrind was given for its files".to_string()),
    };
    match result {
        Ok(()) => ExitCode::SUCCESS,
        Err(what) => {
            eprintln!("{what}");
            ExitCode::FAILURE
        }
    }
}
