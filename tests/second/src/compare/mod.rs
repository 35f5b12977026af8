//! What the stages of the comparison share.

use second::calls::{Call, Comparison};
use second::coverage::{kind_of, Coverage, LETTER, OPENING};
use second::lists::Lists;
use second::model::{self, Rack};
use second::record;
use second::rng::Rng;

mod by_hand;
mod damage;
mod deliveries;
mod examples;
mod letters;
mod lists;
mod openings;
pub mod replay;
mod runs;
mod states;
mod torn;
mod wire;

type Sizes = (u32, u32, u32);

/// Racks with how many of a hundred lists they get: the small ones reach all their states, the large ones fill the mesh.
const RACKS: [(Sizes, usize); 14] = [
    ((1, 1, 1), 4),
    ((1, 1, 2), 4),
    ((2, 1, 2), 6),
    ((2, 1, 3), 14),
    ((3, 1, 4), 10),
    ((3, 2, 5), 12),
    ((2, 2, 64), 10),
    ((4, 3, 40), 10),
    ((15, 1, 15), 10),
    ((8, 16, 16), 8),
    ((1, 32, 64), 4),
    ((15, 32, 15), 3),
    ((15, 32, 64), 3),
    ((15, 4, 64), 2),
];

/// Bytes of the buffer behind the record.
const SPARE: usize = 23;

/// Numbers that a narrower type would cut to small ones, and the largest.
const HUGE: [u32; 9] = [255, 256, 257, 258, 271, 65_535, 65_537, 0x8000_0001, u32::MAX];

pub struct Harness {
    seed: u64,
    rng: Rng,
    pub coverage: Coverage,
    comparison: Comparison,
}

fn filled(seed: u64, length: usize) -> Vec<u8> {
    let mut rng = Rng::new(seed ^ 0xf111);
    (0..length).map(|_| rng.byte()).collect()
}

impl Harness {
    pub fn new(seed: u64) -> Harness {
        Harness { seed, rng: Rng::new(seed), coverage: Coverage::default(), comparison: Comparison::default() }
    }

    /// One call on a buffer, compared and counted.
    fn call(&mut self, before: &[u8], call: &Call) -> Result<u64, String> {
        let given = self.comparison.call(before, call)?;
        let result = given.result;
        match call {
            Call::Step(bytes) => self.coverage.count(kind_of(bytes), result),
            Call::Letter(..) => self.coverage.count(LETTER, result),
            Call::Open(..) => self.coverage.count(OPENING, result),
            Call::Run { .. } => {
                self.coverage.runs += 1;
                self.coverage.run_steps += result;
            }
            Call::Length(_) => {}
        }
        Ok(result)
    }

    /// A rack after a list, with its bytes in a buffer that has spare ones behind.
    fn deep(&mut self, (boards, blocks, tokens): Sizes, steps: usize, wanted: fn(&Rack) -> bool) -> (Rack, Vec<u8>) {
        let mut lists = Lists::new(self.rng.draw());
        let mut rack = Rack::open(boards, blocks, tokens).expect("sizes in range");
        let mut buffer = filled(self.rng.draw(), record::length(blocks as usize) + SPARE);
        let mut made = 0;
        while made < steps || !wanted(&rack) && made < 100 * steps {
            let step = lists.step(&rack);
            // A refusal changes nothing, so the reply does not matter here.
            let _ = rack.step(step);
            made += 1;
        }
        record::encode(&rack, &mut buffer);
        (rack, buffer)
    }

    /// One record of each kind that fits the rack or nearly so.
    fn one_of_each(&mut self, rack: &Rack) -> Vec<Vec<u8>> {
        let mut lists = Lists::new(self.rng.draw());
        let mut found: [Option<Vec<u8>>; 7] = Default::default();
        while found.iter().any(Option::is_none) {
            let bytes = model::write(lists.step(rack));
            let kind = kind_of(&bytes);
            found[kind] = Some(bytes);
        }
        found.into_iter().flatten().collect()
    }
}
