//! The examples, also against the results that are stated for them, and by the blind program.

use super::{filled, Harness, SPARE};
use second::calls::{sound_rack, Call};
use second::examples::{self, Line};
use second::letters::{self, LETTERS};
use second::{blind, record, reply};

impl Harness {
    pub fn examples(&mut self) -> Result<(), String> {
        for example in examples::all() {
            let (boards, blocks, tokens) = example.sizes;
            let mut buffer = filled(1, record::length(blocks as usize) + SPARE);
            let opened = self.call(&buffer, &Call::Open(boards, blocks, tokens))?;
            buffer.clone_from(&self.comparison.after);
            stated(example.name, example.opening, opened)?;
            let mut blind = match blind::Rack::open(boards, blocks, tokens) {
                Ok(blind) => blind,
                Err(number) => {
                    stated(example.name, example.opening, reply::of_blind(Err(number)))?;
                    continue;
                }
            };
            for line in &example.lines {
                match line {
                    Line::Step(bytes, says) => {
                        stated(example.name, says, self.call(&buffer, &Call::Step(bytes))?)?;
                        buffer.clone_from(&self.comparison.after);
                        stated(example.name, says, reply::of_blind(blind.step(bytes)))?;
                    }
                    Line::Letter(component, block, says) => {
                        stated(example.name, says, self.call(&buffer, &Call::Letter(*component, *block))?)?;
                        stated(example.name, says, reply::of_blind_letter(blind.letter(*component, *block)))?;
                    }
                    Line::ShortLetter(component, block, says) => {
                        let short = &buffer[..record::length(blocks as usize) - 1];
                        stated(example.name, says, self.call(short, &Call::Letter(*component, *block))?)?;
                    }
                    Line::Target(target) => {
                        let rack = sound_rack(&buffer).expect("an example's record is sound");
                        if rack.mesh.last().map(|m| m.target) != Some(*target) {
                            return Err(format!("# {}: the newest message does not go to {target}", example.name));
                        }
                    }
                }
            }
        }
        Ok(())
    }
}

pub(super) fn stated(name: &str, says: &str, result: u64) -> Result<(), String> {
    let number = result as u32;
    let said = match result >> 56 {
        0 => "ok".into(),
        1 => format!("r{number}"),
        2 => format!("v{number:08x}"),
        3 => letters::place(result).map_or(reply::say(result), |place| LETTERS[place].into()),
        _ => examples::SERVED.iter().find(|(_, packed)| *packed == result).map_or(reply::say(result), |(text, _)| text.to_string()),
    };
    if said == says {
        Ok(())
    } else {
        Err(format!("# {name}: {said} where {says} is stated"))
    }
}
