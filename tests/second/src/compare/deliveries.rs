//! Lists with the mesh filled, from which messages are taken at all positions.

use super::lists::List;
use super::{Harness, Sizes};
use second::coverage::kind_of;
use second::deliveries::Deliveries;
use second::model::{self, Step};

/// Racks whose messages in flight differ in their words, small ones too.
const RACKS: [Sizes; 7] = [(3, 2, 5), (4, 3, 40), (1, 32, 64), (8, 16, 16), (15, 4, 64), (15, 32, 15), (15, 32, 64)];

impl Harness {
    /// So many steps at least, with as many lists for each rack.
    pub fn deliveries(&mut self, steps: u64) -> Result<(), String> {
        let end = self.coverage.steps + steps;
        while self.coverage.steps < end {
            for sizes in RACKS {
                let seed = self.rng.draw();
                let length = 800 + self.rng.below(800);
                self.filled_list(seed, sizes, length)?;
            }
        }
        Ok(())
    }

    /// A list step by step, then the whole in one run.
    fn filled_list(&mut self, seed: u64, sizes: Sizes, length: usize) -> Result<(), String> {
        let mut list = List::open(seed, sizes)?;
        let mut deliveries = Deliveries::new(seed, &list.rack, length);
        self.coverage.lists += 1;
        while let Some(step) = deliveries.step(&list.rack) {
            if let Step::Deliver { position } = step {
                self.coverage.delivery(&list.rack, position);
            }
            let bytes = model::write(step);
            let kind = kind_of(&bytes);
            let result = list.step(bytes, &mut self.coverage)?;
            self.coverage.steps += 1;
            self.coverage.count(kind, result);
        }
        list.in_one_run()
    }
}
