//! Lengths and openings.

use super::{filled, Harness, HUGE, SPARE};
use second::calls::Call;
use second::{blind, record, reply};

impl Harness {
    pub fn lengths(&mut self) -> Result<(), String> {
        for blocks in (0..=4096).chain(HUGE) {
            self.call(&[], &Call::Length(blocks))?;
        }
        Ok(())
    }

    pub fn openings(&mut self) -> Result<(), String> {
        let buffer = filled(self.seed, record::length(32) + SPARE);
        for boards in 0..=70 {
            for blocks in 0..=70 {
                for tokens in 0..=70 {
                    // The room that is not needed is not lent, so that what is compared stays small.
                    let needed = record::length(blocks.min(32) as usize);
                    let given = self.call(&buffer[..needed + SPARE], &Call::Open(boards, blocks, tokens))?;
                    let blind = reply::of_blind(blind::Rack::open(boards, blocks, tokens).map(|_| blind::Answer::Done));
                    if given != blind {
                        return Err(format!("blind: {} at the opening {boards} {blocks} {tokens}", reply::say(blind)));
                    }
                    let short = if tokens % 8 == 0 { self.rng.below(needed) } else { needed - 1 };
                    self.call(&buffer[..short], &Call::Open(boards, blocks, tokens))?;
                }
            }
        }
        for length in 0..record::length(2) + 2 {
            self.call(&buffer[..length], &Call::Open(2, 1, 3))?;
            self.call(&buffer[..length], &Call::Open(3, 2, 5))?;
            self.call(&buffer[..length], &Call::Open(0, 2, 5))?;
        }
        let some = [0, 1, 2, 15, 16, 32, 64, 65];
        for huge in HUGE {
            for a in some.into_iter().chain(HUGE) {
                for b in some.into_iter().chain(HUGE) {
                    for (boards, blocks, tokens) in [(huge, a, b), (a, huge, b), (a, b, huge)] {
                        self.call(&buffer, &Call::Open(boards, blocks, tokens))?;
                        self.call(&buffer[..40], &Call::Open(boards, blocks, tokens))?;
                    }
                }
            }
        }
        Ok(())
    }
}
