//! Compares the proved engine, and the two engines of the benchmark, `tuned` and `best`, with the model: call by call, over examples, letters
//! worked by hand, lists, deliveries from a filled mesh, openings, state letters, torn steps, short buffers, damaged records, runs, and the reader
//! and writer. It stops at the first difference with a case that `--replay` takes.

mod compare;

use compare::replay::replay;
use compare::Harness;
use second::coverage::Coverage;
use std::process::ExitCode;
use std::thread;
use std::time::Instant;

struct Options {
    seed: u64,
    steps: u64,
    replay: Option<String>,
}

fn options() -> Result<Options, String> {
    let mut options = Options { seed: 1, steps: 800_000, replay: None };
    let mut arguments = std::env::args().skip(1);
    while let Some(name) = arguments.next() {
        let value = arguments.next().ok_or_else(|| format!("{name} wants a value"))?;
        let number = || value.parse::<u64>().map_err(|_| format!("{name} wants a number, not {value}"));
        match name.as_str() {
            "--seed" => options.seed = number()?,
            "--steps" => options.steps = number()?,
            "--replay" => options.replay = Some(value),
            _ => return Err(format!("unknown option {name}; there are --seed, --steps and --replay")),
        }
    }
    Ok(options)
}

/// A part of the comparison, with its name.
type Stage<'a> = (&'a str, &'a (dyn Fn(&mut Harness) -> Result<(), String> + Sync));

/// Runs stages one after the other, and tells what they reached.
fn run(seed: u64, stages: &[Stage]) -> Result<Coverage, String> {
    let mut harness = Harness::new(seed);
    for (name, stage) in stages {
        let start = Instant::now();
        stage(&mut harness).map_err(|case| format!("# {name}, seed {seed}\n{case}"))?;
        println!("{name:>14}: alike, {:.1} s", start.elapsed().as_secs_f64());
    }
    Ok(harness.coverage)
}

/// The lists, and beside them all the rest.
fn compare(options: &Options) -> Result<(), String> {
    let &Options { seed, steps, .. } = options;
    let long = steps >= 2_000_000;
    let lists: [Stage; 2] = [("lists", &|harness| harness.lists(steps)), ("deliveries", &|harness| harness.deliveries(steps / 20))];
    let rest: [Stage; 11] = [
        ("examples", &Harness::examples),
        ("by hand", &Harness::by_hand),
        ("lengths", &Harness::lengths),
        ("openings", &Harness::openings),
        ("all states", &|harness| harness.all_states(long)),
        ("letters", &Harness::letters),
        ("torn steps", &Harness::torn),
        ("short buffers", &Harness::short_buffers),
        ("damage", &|harness| harness.damage(long)),
        ("runs", &|harness| harness.runs(if long { 60_000 } else { 3000 })),
        ("wire", &|harness| harness.wire(if long { 3_000_000 } else { 200_000 })),
    ];
    let (of_lists, of_rest) = thread::scope(|scope| {
        let of_lists = scope.spawn(|| run(seed, &lists));
        let of_rest = run(seed, &rest);
        (of_lists.join().expect("the lists end with a result"), of_rest)
    });
    let mut coverage = of_rest?;
    coverage.add(&of_lists?);
    coverage.print();
    let gaps = coverage.gaps();
    if gaps.is_empty() {
        Ok(())
    } else {
        Err(format!("not covered: {}", gaps.join("; ")))
    }
}

fn main() -> ExitCode {
    let result = options().and_then(|options| match &options.replay {
        Some(path) => std::fs::read_to_string(path).map_err(|error| format!("{path}: {error}")).and_then(|text| replay(&text)),
        None => compare(&options),
    });
    match result {
        Ok(()) => {
            println!("no difference");
            ExitCode::SUCCESS
        }
        Err(what) => {
            eprintln!("{what}");
            ExitCode::FAILURE
        }
    }
}
