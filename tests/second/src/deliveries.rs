//! Seeded lists that keep the mesh filled with messages that carry words, and deliver mostly from its middle.
//!
//! A store needs all tokens of its block, so messages of one block carry the same words as long as they are in flight. The words differ from
//! block to block: each is gathered at a board first, which stores all eight.

use crate::model::{Rack, Step, HOME, MESH_LIMIT, WORDS};
use crate::rng::Rng;

/// How many messages go one by one at the end of a list.
const SINGLE: usize = 12;

pub struct Deliveries {
    rng: Rng,
    /// Steps with the mesh filled that are still to come, then messages that go one by one.
    left: usize,
    single: usize,
    /// Blocks that still have the words of the opening.
    fresh: Vec<u8>,
    gathering: Option<Gathering>,
}

/// A block whose tokens all go to a board, which then stores so many words.
struct Gathering {
    block: u8,
    board: u8,
    stores: u8,
}

impl Deliveries {
    /// A list with so many steps before the mesh is emptied.
    pub fn new(seed: u64, rack: &Rack, steps: usize) -> Deliveries {
        Deliveries { rng: Rng::new(seed), left: steps, single: SINGLE, fresh: (0..rack.blocks.len() as u8).collect(), gathering: None }
    }

    /// The next step; none at the end of the list.
    pub fn step(&mut self, rack: &Rack) -> Option<Step> {
        if self.left > 0 {
            self.left -= 1;
            return Some(self.filling(rack));
        }
        if !rack.mesh.is_empty() {
            return Some(self.deliver(rack));
        }
        self.single = self.single.checked_sub(1)?;
        self.send(rack)
    }

    /// A step that keeps the mesh filled.
    fn filling(&mut self, rack: &Rack) -> Step {
        if self.gathering.is_none() && (!self.fresh.is_empty() || self.rng.percent(2)) {
            let block = self.fresh.pop().unwrap_or_else(|| self.rng.below(rack.blocks.len()) as u8);
            let board = 1 + self.rng.below(rack.boards.into()) as u8;
            self.gathering = Some(Gathering { block, board, stores: WORDS as u8 });
        }
        if let Some(step) = self.gather(rack) {
            return step;
        }
        let most = (rack.blocks.len() * rack.tokens as usize).min(MESH_LIMIT);
        let sends = if rack.mesh.len() < most - most / 4 { 85 } else { 52 };
        let step = match self.rng.below(100) {
            0..4 => self.load(rack),
            _ if self.rng.percent(sends) => self.send(rack),
            _ => None,
        };
        step.unwrap_or_else(|| self.deliver(rack))
    }

    /// A delivery, mostly of a message that stands between others; now and then of none.
    fn deliver(&mut self, rack: &Rack) -> Step {
        let count = rack.mesh.len();
        let position = match self.rng.below(100) {
            0..2 => count,
            2..10 => 0,
            10..18 => count.saturating_sub(1),
            _ if count > 2 => 1 + self.rng.below(count - 2),
            _ => self.rng.below(count.max(1)),
        };
        Step::Deliver { position: position as u8 }
    }

    /// The next step towards a board with all tokens of a block and eight new words.
    fn gather(&mut self, rack: &Rack) -> Option<Step> {
        let Gathering { block, board, stores } = *self.gathering.as_ref()?;
        let flying: Vec<u8> = (0..).zip(&rack.mesh).filter(|(_, m)| m.block == block).map(|(position, _)| position).collect();
        if !flying.is_empty() {
            return Some(Step::Deliver { position: self.rng.pick(&flying) });
        }
        let cells = &rack.blocks[usize::from(block)].cells;
        if let Some((component, cell)) = (HOME..).zip(cells).find(|(component, cell)| *component != board && cell.held() > 0) {
            let full = rack.mesh.len() == MESH_LIMIT;
            let send = Step::Send { component, block, target: board, plain: cell.plain as u8, owner: cell.owner.here(), data: cell.valid };
            return Some(if full { self.deliver(rack) } else { send });
        }
        self.gathering = (stores > 1).then_some(Gathering { block, board, stores: stores - 1 });
        Some(Step::Store { component: board, block, word: stores - 1, value: self.rng.draw() as u32 })
    }

    /// A load at a component with valid words, home among them.
    fn load(&mut self, rack: &Rack) -> Option<Step> {
        let (component, block) = self.valid(rack)?;
        Some(Step::Load { component, block, word: self.rng.below(WORDS) as u8 })
    }

    /// A few tokens of a component with valid words, mostly with these, to another component: mostly one that has other words. Every third
    /// owner goes home without them.
    fn send(&mut self, rack: &Rack) -> Option<Step> {
        let (component, block) = self.valid(rack)?;
        let cell = &rack.blocks[usize::from(block)].cells[usize::from(component)];
        let plain = self.rng.pick(&[1, 1, 2]).min(cell.plain) as u8;
        let owner = cell.owner.here() && (plain == 0 || self.rng.percent(10));
        if owner && component != HOME && self.rng.below(3) == 0 {
            return Some(Step::Send { component, block, target: HOME, plain, owner, data: false });
        }
        let data = owner || self.rng.percent(85);
        let cells = (HOME..).zip(&rack.blocks[usize::from(block)].cells);
        let others: Vec<u8> = cells.filter(|(_, other)| other.words != cell.words).map(|(component, _)| component).collect();
        let target = if others.is_empty() || self.rng.percent(20) {
            let other = self.rng.below(rack.boards.into()) as u8;
            other + u8::from(other >= component)
        } else {
            self.rng.pick(&others)
        };
        Some(Step::Send { component, block, target, plain, owner, data })
    }

    /// A component and a block of which it has valid words; none where a few blocks in a row have them in flight alone.
    fn valid(&mut self, rack: &Rack) -> Option<(u8, u8)> {
        (0..4).find_map(|_| {
            let block = self.rng.below(rack.blocks.len());
            let cells = (HOME..).zip(&rack.blocks[block].cells);
            let valid: Vec<u8> = cells.filter(|(_, cell)| cell.valid).map(|(component, _)| component).collect();
            (!valid.is_empty()).then(|| (self.rng.pick(&valid), block as u8))
        })
    }
}
