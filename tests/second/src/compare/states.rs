//! All states of the smallest racks.

use super::{filled, Harness, Sizes, SPARE};
use second::calls::{sound_rack, Call};
use second::model::{self, Rack, Step};
use second::record;
use std::collections::HashSet;

/// Racks with few states, the last two for long runs.
const SMALLEST: [Sizes; 7] = [(1, 1, 1), (1, 1, 2), (1, 1, 3), (1, 2, 1), (2, 1, 2), (1, 1, 4), (1, 2, 2)];

impl Harness {
    pub fn all_states(&mut self, long: bool) -> Result<(), String> {
        for sizes in &SMALLEST[..if long { 7 } else { 5 }] {
            let count = self.states(*sizes)?;
            println!("{:>16}{sizes:?} has {count} states", "");
        }
        Ok(())
    }

    /// Every step on every state that is reached from the opening, with stores of two values to word 0; and every letter.
    fn states(&mut self, (boards, blocks, tokens): Sizes) -> Result<usize, String> {
        let fresh = Rack::open(boards, blocks, tokens).expect("sizes in range");
        let mut buffer = filled(self.seed, record::length(blocks as usize) + SPARE);
        let mut seen = HashSet::from([fresh.clone()]);
        let mut open = vec![fresh];
        while let Some(rack) = open.pop() {
            record::encode(&rack, &mut buffer);
            for component in 0..=boards + 1 {
                for block in 0..=blocks {
                    self.call(&buffer, &Call::Letter(component, block))?;
                }
            }
            for step in all_steps(&rack) {
                let result = self.call(&buffer, &Call::Step(&model::write(step)))?;
                if result >> 56 != 1 && !matches!(step, Step::Load { .. }) {
                    let next = sound_rack(&self.comparison.after).map_err(|_| format!("# not sound after {step:?}"))?;
                    if !seen.contains(&next) {
                        seen.insert(next.clone());
                        open.push(next);
                    }
                }
            }
        }
        Ok(seen.len())
    }
}

/// All steps with numbers on the rack or one past it.
fn all_steps(rack: &Rack) -> Vec<Step> {
    let mut steps: Vec<Step> = (0..=rack.mesh.len() as u8).map(|position| Step::Deliver { position }).collect();
    for component in 0..=rack.boards + 1 {
        for block in 0..=rack.blocks.len() as u8 {
            steps.push(Step::Raise { component, block });
            steps.push(Step::Lower { component, block });
            steps.push(Step::Forward { component, block });
            for word in [0, 7, 8] {
                steps.push(Step::Load { component, block, word });
            }
            for (word, value) in [(0, 0), (0, 1), (8, 1)] {
                steps.push(Step::Store { component, block, word, value });
            }
            for target in 0..=rack.boards + 1 {
                let off = component.max(target) > rack.boards || usize::from(block) == rack.blocks.len();
                // Off the rack all give 3: a few of them do.
                for plain in 0..=if off { 0 } else { rack.tokens as u8 } {
                    for (owner, data) in [(false, false), (false, true), (true, false), (true, true)] {
                        steps.push(Step::Send { component, block, target, plain, owner, data });
                    }
                }
            }
        }
    }
    steps
}
