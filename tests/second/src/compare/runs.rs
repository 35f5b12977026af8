//! Lists in one call.

use super::{Harness, RACKS};
use second::calls::{hex, Call, ENGINES, RECORD};
use second::lists::Lists;
use second::{model, record};

impl Harness {
    pub fn runs(&mut self, count: usize) -> Result<(), String> {
        for turn in 0..count {
            let sizes = self.rng.pick(&RACKS).0;
            let (mut rack, buffer) = self.deep(sizes, 40, |_| true);
            let start = rack.clone();
            let mut lists = Lists::new(self.rng.draw());
            let mut list = Vec::new();
            for _ in 0..self.rng.below(60) {
                let bytes = lists.bytes(&rack);
                if let Ok(step) = model::read(&bytes) {
                    let _ = rack.step(step);
                }
                list.extend(bytes);
            }
            if self.rng.percent(40) {
                list.truncate(self.rng.below(list.len() + 1));
            }
            let mut buffer = match turn % 8 {
                // unsound, or too short
                0 => {
                    let mut other = start;
                    self.disturb(&mut other);
                    let mut buffer = buffer;
                    record::encode(&other, &mut buffer);
                    buffer
                }
                1 => {
                    let length = self.rng.below(buffer.len() + 1);
                    buffer[..length].to_vec()
                }
                _ => buffer,
            };
            // The whole list at once, against the model and against single calls of the engine.
            let first = buffer.clone();
            self.call(&first, &Call::Run { list: &list, at: 0, places: 80 })?;
            self.singly(&first, &list)?;
            // The same list with few places for replies, going on from `at`; the last call is at the end of the list.
            let mut at = 0;
            loop {
                let places = self.rng.below(9);
                let given = self.comparison.call(&buffer, &Call::Run { list: &list, at, places })?;
                self.coverage.runs += 1;
                self.coverage.run_steps += given.result;
                buffer.clone_from(&self.comparison.after);
                if at == list.len() {
                    break;
                }
                at = given.at;
            }
            // From any place, also past the end.
            let past = self.rng.pick(&[1, 2, 1000, usize::MAX - list.len()]);
            for at in [self.rng.below(list.len() + 1), list.len() + past] {
                self.call(&buffer, &Call::Run { list: &list, at, places: 5 })?;
            }
        }
        Ok(())
    }

    /// A run is as so many single steps: the engine's own calls beside each other.
    fn singly(&mut self, before: &[u8], list: &[u8]) -> Result<(), String> {
        for engine in ENGINES.iter().filter(|engine| engine.layout == RECORD) {
            let (mut whole, mut single) = (before.to_vec(), before.to_vec());
            let mut replies = vec![0; 80];
            let made = (engine.run)(&mut whole, list, &mut 0, &mut replies);
            let mut left = list;
            let mut singles = Vec::new();
            while !left.is_empty() && singles.len() < 80 {
                let (bytes, rest) = model::cut(left);
                singles.push((engine.step)(&mut single, bytes));
                left = rest;
            }
            if replies[..made] != singles || whole != single {
                let call = Call::Run { list, at: 0, places: 80 };
                return Err(format!("# {}: a run is not as its single steps\nbytes {}\n{}", engine.name, hex(before), call.text()));
            }
        }
        Ok(())
    }
}
