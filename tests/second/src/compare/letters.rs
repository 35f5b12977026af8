//! Every state letter of a rack, and letters off the rack.

use super::{Harness, HUGE, RACKS};
use second::calls::Call;
use second::model::{Owner, Rack};

/// Whether some board has all tokens of a block, with such an owner.
fn whole(rack: &Rack, owner: Owner) -> bool {
    rack.blocks.iter().any(|block| block.cells[1..].iter().any(|cell| cell.held() == rack.tokens && cell.owner == owner))
}

impl Harness {
    /// On each rack in two states, one with an E and one with an M.
    pub fn letters(&mut self) -> Result<(), String> {
        let wanted: [fn(&Rack) -> bool; 2] = [|rack| whole(rack, Owner::Clean), |rack| whole(rack, Owner::Dirty)];
        for (sizes, _) in RACKS {
            for wanted in wanted {
                let (_, buffer) = self.deep(sizes, 1000, wanted);
                for component in (0..=sizes.0 + 1).chain(HUGE) {
                    for block in (0..=sizes.1).chain(HUGE) {
                        self.call(&buffer, &Call::Letter(component, block))?;
                    }
                }
            }
        }
        Ok(())
    }
}
