//! Instructions a step, counted by callgrind: `valgrind --tool=callgrind --instr-atstart=no --callgrind-out-file=OUT bench --instructions OUT`.
//!
//! The program asks valgrind to count during a pass and to write the count to a file, which it then reads.

use crate::engines::{self, Engine, Records};
use crate::rows::{self, Row};
use crate::Call;
use std::arch::asm;
use std::hint::black_box;

/// Counts do not depend on how long a list is.
const STEPS: usize = 4000;

/// Requests of callgrind: the base is the letters C and T.
const DUMP: u64 = 0x4354_0000;
const ZERO: u64 = DUMP + 1;
const TOGGLE: u64 = DUMP + 2;
const START: u64 = DUMP + 4;
const STOP: u64 = DUMP + 5;

/// Asks the valgrind that runs this program; elsewhere it does nothing.
fn ask(request: u64) {
    let words: [u64; 6] = [request, 0, 0, 0, 0, 0];
    // SAFETY: the rotations make no change together, and valgrind reads the six words alone.
    unsafe {
        asm!(
            "rol rdi, 3", "rol rdi, 13", "rol rdi, 61", "rol rdi, 51", "xchg rbx, rbx",
            in("rax") words.as_ptr(), inout("rdx") 0u64 => _, options(nostack),
        );
    }
}

/// What is done meanwhile is not counted.
fn uncounted(work: impl FnOnce()) {
    ask(TOGGLE);
    work();
    ask(TOGGLE);
}

struct Counter {
    out: String,
    dumps: usize,
}

impl Counter {
    fn count(&mut self, pass: impl FnOnce()) -> Result<u64, String> {
        ask(START);
        ask(ZERO);
        pass();
        ask(DUMP);
        ask(STOP);
        self.dumps += 1;
        let path = format!("{}.{}", self.out, self.dumps);
        let text = std::fs::read_to_string(&path).map_err(|error| format!("{path}: {error}; is this run by valgrind?"))?;
        let total = text.lines().find_map(|line| line.strip_prefix("totals: ").or(line.strip_prefix("summary: ")));
        total.and_then(|total| total.trim().parse().ok()).ok_or(format!("{path} has no total"))
    }
}

/// Instructions a step.
fn measure(counter: &mut Counter, row: &Row, call: Call, engine: &Engine) -> Result<f64, String> {
    let mut records = Records::new(row, engine);
    let (order, runs) = (row.order(STEPS), row.runs());
    let mut replies = vec![0; row.steps().min(STEPS)];
    let total = counter.count(|| match call {
        Call::Step => {
            for (part, replies) in order.chunks(row.steps_of_part()).zip(replies.chunks_mut(row.steps_of_part())) {
                uncounted(|| records.renew());
                for ((number, bytes), reply) in part.iter().zip(replies) {
                    *reply = (engine.step)(black_box(&mut records.used[*number]), black_box(bytes));
                }
            }
        }
        Call::Run => {
            let mut steps = 0;
            for part in runs.chunks(row.runs_of_part()) {
                uncounted(|| records.renew());
                for &(number, mut at, count) in part {
                    let places = &mut replies[steps..steps + count];
                    (engine.run)(black_box(&mut records.used[number]), black_box(&row.works[number].list), &mut at, places);
                    steps += count;
                }
            }
        }
        Call::Letter => {
            for (&(number, component, block), reply) in row.asked.iter().zip(&mut replies) {
                *reply = (engine.letter)(black_box(&records.used[number]), black_box(component), black_box(block));
            }
        }
    })?;
    Ok(total as f64 / replies.len() as f64)
}

#[inline(never)]
fn no_step(rec: &mut [u8], bytes: &[u8]) -> u64 {
    black_box((rec, bytes));
    0
}

#[inline(never)]
fn no_run(rec: &mut [u8], list: &[u8], at: &mut usize, replies: &mut [u64]) -> usize {
    black_box((rec, list, at, replies));
    0
}

#[inline(never)]
fn no_letter(rec: &[u8], component: u32, block: u32) -> u64 {
    black_box((rec, component, block));
    0
}

pub fn table(out: &str) -> Result<(), String> {
    let engines = engines::all();
    let mut counter = Counter { out: out.to_string(), dumps: 0 };
    println!("Instructions a step, by callgrind; the benchmark's own loop is taken off.");
    println!();
    let names: Vec<&str> = engines.iter().map(|engine| engine.name).collect();
    println!("| N, B, T | state | in flight | copies | barred | accepted | call | {} |", names.join(" | "));
    println!("{}", "|---".repeat(7 + names.len()) + "|");
    for row in rows::all(STEPS) {
        for &call in row.calls() {
            let nothing = Engine { name: "nothing", step: no_step, run: no_run, letter: no_letter, ..engines[0] };
            let loops = measure(&mut counter, &row, call, &nothing)?;
            let mut counts = Vec::new();
            for engine in &engines {
                counts.push(format!("{:.0}", measure(&mut counter, &row, call, engine)? - loops));
            }
            println!("{} {} | {} |", crate::state(&row), call.name(), counts.join(" | "));
        }
    }
    Ok(())
}
