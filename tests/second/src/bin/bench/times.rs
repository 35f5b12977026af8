//! Steps per second, in interleaved rounds of one process.

use crate::engines::{self, Engine, Records};
use crate::rows::{self, Row};
use crate::Call;
use second::model::{self, Rack};
use second::reply;
use std::hint::black_box;
use std::time::{Duration, Instant};

/// Branch predictors learn a list of a few thousand steps by heart.
const STEPS: usize = 60_000;
/// Soundness by the model is slow: it gets the first steps only.
const MODEL_STEPS: usize = 3000;
/// Renewing the model's racks is slower still: it then gets one pass of so many steps in a round.
const RENEWED_MODEL_STEPS: usize = 512;
const ROUNDS: usize = 15;
/// How long one measurement takes at least.
const SHARE: Duration = Duration::from_millis(12);

/// What is measured once: the steps given, and the time that they took.
struct Pass {
    took: Duration,
    steps: usize,
}

impl Pass {
    /// Nanoseconds a step.
    fn nanos(&self) -> f64 {
        self.took.as_secs_f64() * 1e9 / self.steps as f64
    }
}

/// Between two parts of a list the records are renewed, which is not measured.
fn singly(row: &Row, order: &[(usize, &[u8])], records: &mut Records, engine: &Engine, replies: &mut [u64]) -> Pass {
    let mut took = Duration::ZERO;
    for (part, replies) in order.chunks(row.steps_of_part()).zip(replies.chunks_mut(row.steps_of_part())) {
        records.renew();
        let start = Instant::now();
        for ((number, bytes), reply) in part.iter().zip(replies) {
            *reply = (engine.step)(black_box(&mut records.used[*number]), black_box(bytes));
        }
        took += start.elapsed();
    }
    Pass { took, steps: order.len() }
}

fn in_runs(row: &Row, runs: &[(usize, usize, usize)], records: &mut Records, engine: &Engine, replies: &mut [u64]) -> Pass {
    let (mut took, mut steps) = (Duration::ZERO, 0);
    for part in runs.chunks(row.runs_of_part()) {
        records.renew();
        let start = Instant::now();
        for &(number, mut at, count) in part {
            let places = &mut replies[steps..steps + count];
            steps += (engine.run)(black_box(&mut records.used[number]), black_box(&row.works[number].list), &mut at, places);
        }
        took += start.elapsed();
    }
    assert_eq!(steps, row.steps());
    Pass { took, steps }
}

fn letters(asked: &[(usize, u32, u32)], records: &Records, engine: &Engine, replies: &mut [u64]) -> Pass {
    let start = Instant::now();
    for (&(number, component, block), reply) in asked.iter().zip(replies) {
        *reply = (engine.letter)(black_box(&records.used[number]), black_box(component), black_box(block));
    }
    Pass { took: start.elapsed(), steps: asked.len() }
}

/// The model on its values; it is spared the decoding.
fn by_model(order: &[(usize, &[u8])], row: &Row, asks: bool, replies: &mut [u64]) -> Pass {
    let mut took = Duration::ZERO;
    for (part, replies) in order.chunks(row.steps_of_part()).zip(replies.chunks_mut(row.steps_of_part())) {
        let mut racks: Vec<Rack> = row.works.iter().map(|work| work.rack.clone()).collect();
        let start = Instant::now();
        for ((number, bytes), reply) in part.iter().zip(replies) {
            let rack = &mut racks[*number];
            let given = model::read(black_box(bytes)).and_then(|step| {
                if asks && !black_box(&*rack).sound() {
                    return Err(model::Refusal::Unsound);
                }
                rack.step(step)
            });
            *reply = reply::of_reply(given);
        }
        took += start.elapsed();
    }
    Pass { took, steps: order.len() }
}

fn letters_by_model(asked: &[(usize, u32, u32)], row: &Row, replies: &mut [u64]) -> Pass {
    let start = Instant::now();
    for (&(number, component, block), reply) in asked.iter().zip(replies) {
        let rack = black_box(&row.works[number].rack);
        let given = if rack.sound() { rack.letter(component, block) } else { Err(model::Refusal::Unsound) };
        *reply = reply::of_letter(given);
    }
    Pass { took: start.elapsed(), steps: asked.len() }
}

/// Passes until the share of time is used: nanoseconds a step.
fn share(mut pass: impl FnMut() -> Pass) -> f64 {
    let mut all = Pass { took: Duration::ZERO, steps: 0 };
    while all.took < SHARE {
        let one = pass();
        all.took += one.took;
        all.steps += one.steps;
    }
    all.nanos()
}

fn median(values: impl Iterator<Item = f64>) -> f64 {
    let mut values: Vec<f64> = values.collect();
    values.sort_by(f64::total_cmp);
    values[values.len() / 2]
}

/// By round: nanoseconds a step of each engine, then of the model.
fn measure(row: &Row, call: Call, engines: &[Engine]) -> Vec<Vec<f64>> {
    let (order, runs) = (row.order(STEPS), row.runs());
    let model_steps = match call {
        _ if row.renewed => RENEWED_MODEL_STEPS,
        Call::Step | Call::Letter => MODEL_STEPS,
        Call::Run => order.len(),
    };
    let mut replies = vec![0; row.steps()];
    let mut records: Vec<Records> = engines.iter().map(|engine| Records::new(row, engine)).collect();
    let mut first: Option<Vec<u64>> = None;
    let mut rounds = Vec::new();
    for _ in 0..ROUNDS {
        let mut nanos = Vec::new();
        for (engine, records) in engines.iter().zip(&mut records) {
            nanos.push(share(|| match call {
                Call::Step => singly(row, &order, records, engine, &mut replies),
                Call::Run => in_runs(row, &runs, records, engine, &mut replies),
                Call::Letter => letters(&row.asked, records, engine, &mut replies),
            }));
            let first = first.get_or_insert_with(|| replies.clone());
            assert!(engine.agrees(&replies, first), "{} gives other replies", engine.name);
        }
        let mut pass = || match call {
            Call::Letter => letters_by_model(&row.asked[..model_steps], row, &mut replies),
            _ => by_model(&order[..model_steps], row, call == Call::Step, &mut replies),
        };
        nanos.push(if row.renewed { pass().nanos() } else { share(pass) });
        if call != Call::Run || row.works.len() == 1 {
            let same = first.as_ref().is_some_and(|first| first[..model_steps] == replies[..model_steps]);
            assert!(same, "the model gives other replies");
        }
        rounds.push(nanos);
    }
    rounds
}

pub fn table() {
    let engines = engines::all();
    println!(
        "Millions of steps per second (nanoseconds a step), medians of {ROUNDS} interleaved rounds; a ratio above 1: the engine is faster."
    );
    println!();
    let names: Vec<&str> = engines.iter().map(|engine| engine.name).chain(["model"]).collect();
    let ratios: String = engines[1..].iter().map(|engine| format!(" engine : {} |", engine.name)).collect();
    println!("| N, B, T | state | in flight | copies | barred | accepted | call | {} |{ratios}", names.join(" | "));
    println!("{}", "|---".repeat(7 + names.len() + engines.len() - 1) + "|");
    for row in rows::all(STEPS) {
        for &call in row.calls() {
            let rounds = measure(&row, call, &engines);
            let nanos = (0..names.len()).map(|i| median(rounds.iter().map(|round| round[i])));
            let speeds: Vec<String> = nanos.map(|nanos| format!("{:.2} ({nanos:.0})", 1e3 / nanos)).collect();
            let ratios = (1..engines.len()).map(|i| median(rounds.iter().map(|round| round[i] / round[0])));
            let ratios: String = ratios.map(|ratio| format!(" {ratio:.2} |")).collect();
            println!("{} {} | {} |{ratios}", crate::state(&row), call.name(), speeds.join(" | "));
        }
    }
}
