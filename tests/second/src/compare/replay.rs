//! A case once more.

use super::filled;
use second::calls::{unhex, Call, Comparison};
use second::reply;

/// Makes the calls of a case one after the other, as far as they agree.
pub fn replay(text: &str) -> Result<(), String> {
    let mut comparison = Comparison::default();
    let mut buffer = Vec::new();
    for line in text.lines().map(str::trim).filter(|line| !line.is_empty() && !line.starts_with('#')) {
        let bad = || format!("not a line of a case: {line}");
        let (verb, rest) = line.split_once(' ').unwrap_or((line, ""));
        let words: Vec<&str> = rest.split_whitespace().collect();
        let number = |i: usize| words.get(i).and_then(|word| word.parse::<u64>().ok()).ok_or_else(bad);
        let small = |i: usize| number(i).and_then(|n| u32::try_from(n).map_err(|_| bad()));
        let bytes;
        let call = match verb {
            "fill" => {
                buffer = filled(number(0)?, number(1)? as usize);
                continue;
            }
            "bytes" => {
                buffer = unhex(rest).ok_or_else(bad)?;
                continue;
            }
            "length" => Call::Length(small(0)?),
            "open" => Call::Open(small(0)?, small(1)?, small(2)?),
            "letter" => Call::Letter(small(0)?, small(1)?),
            "step" => {
                bytes = unhex(rest).ok_or_else(bad)?;
                Call::Step(&bytes)
            }
            "run" => {
                bytes = unhex(&words.get(2..).unwrap_or(&[]).concat()).ok_or_else(bad)?;
                Call::Run { list: &bytes, at: number(0)? as usize, places: number(1)? as usize }
            }
            _ => return Err(bad()),
        };
        let given = comparison.call(&buffer, &call)?;
        println!("{}: {}", if line.len() > 100 { verb } else { line }, reply::say(given.result));
        buffer.clone_from(&comparison.after);
    }
    Ok(())
}
