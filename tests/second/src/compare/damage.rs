//! Damaged records: refused with 2 exactly where the model says unsound, and otherwise as the model has it.

use super::{filled, Harness, Sizes, SPARE};
use second::calls::Call;
use second::layout::{
    block_offset, message_offset, BLOCKS, BOARDS, COUNT, DIRTY, FORMAT, FORMAT_BYTES, HEADER_SIZE, MESSAGE_DIRTY, MESSAGE_SIZE, PLACES,
    TOKENS, WORDS,
};
use second::model::{self, Owner, Rack, Step, HOME};
use second::record;

impl Harness {
    /// Calls to try on a damaged record, one for each change in turn.
    fn probes(&mut self, rack: &Rack) -> Vec<Vec<u8>> {
        let mut steps = self.one_of_each(rack);
        steps.extend(self.one_of_each(rack));
        // what home has is damaged too, and this reads it
        steps.push(model::write(Step::Load { component: HOME, block: 0, word: 0 }));
        // one torn step: 1 comes before 2
        steps.push(vec![0x13, 0, 4, 9, 0, 1]);
        steps
    }

    /// A record that had this rack before, with one of the calls.
    fn damaged(&mut self, before: &Rack, buffer: &[u8], probes: &[Vec<u8>], turn: usize) -> Result<(), String> {
        self.coverage.damaged(before, buffer);
        let turn = turn % (probes.len() + 2);
        if let Some(step) = probes.get(turn) {
            self.call(buffer, &Call::Step(step))?;
        } else if turn == probes.len() {
            let (component, block) = (self.rng.below(5) as u32, self.rng.below(3) as u32);
            self.call(buffer, &Call::Letter(component, block))?;
        } else {
            let list = probes.concat();
            self.call(buffer, &Call::Run { list: &list, at: 0, places: probes.len() + 1 })?;
        }
        Ok(())
    }

    /// Every change of one byte. Where a byte is room that nothing reads, a few values do in a short run.
    fn every_byte(&mut self, sizes: Sizes, whole: bool, wanted: fn(&Rack) -> bool) -> Result<(), String> {
        let (rack, mut buffer) = self.deep(sizes, 40, wanted);
        let probes = self.probes(&rack);
        let mut other = buffer.iter().map(|byte| !byte).collect::<Vec<u8>>();
        record::encode(&rack, &mut other);
        let mut turn = 0;
        for at in 0..buffer.len() {
            let kept = buffer[at];
            let room = other[at] != kept;
            for value in 0..=255 {
                if value != kept && (whole || !room || value % 64 == 1) {
                    buffer[at] = value;
                    self.damaged(&rack, &buffer, &probes, turn)?;
                    turn += 1;
                }
            }
            buffer[at] = kept;
        }
        Ok(())
    }

    /// Random changes of a large record: of bytes, and of figures so that many stay sound.
    fn random_damage(&mut self, sizes: Sizes, tries: usize) -> Result<(), String> {
        let (rack, buffer) = self.deep(sizes, 3000, |rack| rack.mesh.len() > 20);
        let probes = self.probes(&rack);
        let mut damaged = buffer.clone();
        for turn in 0..tries {
            damaged.clone_from(&buffer);
            if turn % 2 == 0 {
                for _ in 0..1 + self.rng.below(2) {
                    let at = match self.rng.below(6) {
                        0 => self.rng.below(COUNT + 1),
                        1 => HEADER_SIZE + self.rng.below(MESSAGE_SIZE * rack.mesh.len().max(1)),
                        // what a block has in front of its words
                        2 => block_offset(self.rng.below(rack.blocks.len())) + self.rng.below(WORDS),
                        3 => {
                            let at = self.mark(&rack);
                            damaged[at] = self.rng.pick(&[0, 1, 1, 2]);
                            continue;
                        }
                        4 => self.mark(&rack),
                        _ => self.rng.below(buffer.len()),
                    };
                    damaged[at] = if self.rng.percent(50) { self.rng.byte() } else { damaged[at] ^ 1 << self.rng.below(8) };
                }
            } else {
                let mut other = rack.clone();
                for _ in 0..1 + self.rng.below(3) {
                    self.disturb(&mut other);
                }
                record::encode(&other, &mut damaged);
            }
            self.damaged(&rack, &damaged, &probes, self.seed as usize + turn / 2)?;
        }
        Ok(())
    }

    /// Where a mark is: beside an owner, or of any component, known or not, or of any message.
    fn mark(&mut self, rack: &Rack) -> usize {
        let (block, component) = (self.rng.below(rack.blocks.len()), self.rng.below(PLACES));
        let cell = |block: usize, component: usize| block_offset(block) + DIRTY + component;
        let message = |i: usize| message_offset(i) + MESSAGE_DIRTY;
        let owners = rack.mesh.iter().enumerate().filter(|(_, m)| m.owner.here());
        match self.rng.below(4) {
            0 => cell(block, component),
            1 => message(self.rng.below(rack.mesh.len().max(1))),
            2 if owners.clone().count() > 0 => message(self.rng.pick(&owners.map(|(i, _)| i).collect::<Vec<usize>>())),
            _ => cell(block, rack.blocks[block].cells.iter().position(|cell| cell.owner.here()).unwrap_or(component)),
        }
    }

    /// Changes figures of a rack as a faulty engine might.
    pub(super) fn disturb(&mut self, rack: &mut Rack) {
        let rng = &mut self.rng;
        let number = rng.below(rack.blocks.len());
        let (from, to) = (rng.below(usize::from(rack.boards) + 1), rng.below(usize::from(rack.boards) + 1));
        let board = rng.below(16) as u8;
        let in_flight = rng.below(rack.mesh.len().max(1));
        let block = &mut rack.blocks[number];
        let owner = rng.pick(&[Owner::Away, Owner::Dirty, Owner::Clean]);
        match rng.below(17) {
            // tokens moved, made or lost
            0 | 1 if block.cells[from].plain > 0 => {
                block.cells[from].plain -= 1;
                block.cells[to].plain += 1;
            }
            2 => block.cells[from].plain ^= 1,
            3 => block.cells[from].owner = owner,
            4 => block.cells[from].valid ^= true,
            5 => block.cells[from].words[0] ^= 1,
            6 => {
                let moved = block.cells[from].clone();
                block.cells[from] = block.cells[to].clone();
                block.cells[to] = moved;
            }
            // claims
            7 => {
                block.waiting.insert(board);
            }
            8 => {
                block.waiting.remove(&board);
            }
            9 => {
                let waiting = block.waiting.clone();
                if let Some(set) = block.barring.get_mut(&board) {
                    *set = waiting;
                }
            }
            10 => {
                let wait = rng.below(16) as u8;
                if let Some(set) = block.barring.get_mut(&board) {
                    set.insert(wait);
                }
            }
            // the mark of the block's owner, or of one in flight
            13 | 14 => {
                let cells = block.cells.iter_mut().map(|cell| &mut cell.owner);
                for kept in cells.chain(rack.mesh.iter_mut().map(|message| &mut message.owner)).filter(|kept| kept.here()) {
                    if rng.percent(60) {
                        *kept = if *kept == Owner::Dirty { Owner::Clean } else { Owner::Dirty };
                        return;
                    }
                }
            }
            // the mesh
            _ if rack.mesh.is_empty() => {}
            11 => {
                rack.mesh.rotate_left(in_flight);
            }
            12 => {
                let message = &mut rack.mesh[in_flight];
                match rng.below(7) {
                    0 => message.sender = from as u8,
                    1 => message.target = to as u8,
                    2 => message.data ^= true,
                    3 => message.owner = owner,
                    4 => message.words[7] ^= 1,
                    5 => message.block = number as u8,
                    _ => message.plain ^= 1,
                }
            }
            15 => {
                // an owner loses its words, and perhaps its way or its mark
                if let Some(message) = rack.mesh.iter_mut().find(|message| message.owner.here()) {
                    (message.data, message.words) = (false, [0; model::WORDS]);
                    message.target = if rng.percent(50) { HOME } else { message.target };
                    message.owner = rng.pick(&[Owner::Dirty, Owner::Clean]);
                }
            }
            _ => {
                // the oldest message arrives without its words
                let message = rack.mesh.remove(0);
                let cell = &mut rack.blocks[usize::from(message.block)].cells[usize::from(message.target)];
                cell.plain += message.plain;
                if message.owner.here() {
                    cell.owner = message.owner;
                }
                cell.valid |= rng.percent(50);
            }
        }
    }

    /// Every value of each header byte that is no room, in a buffer that has room for what it says: 255 blocks would fit. Also no format, and its
    /// bytes in another order.
    fn headers(&mut self) -> Result<(), String> {
        let (rack, buffer) = self.deep((3, 2, 5), 60, |_| true);
        let probes = self.probes(&rack);
        let mut long = filled(self.seed, record::length(255) + SPARE);
        long[..buffer.len()].copy_from_slice(&buffer);
        for at in [BOARDS, BLOCKS, TOKENS, COUNT].into_iter().chain(FORMAT..HEADER_SIZE) {
            let kept = long[at];
            for value in 0..=255 {
                long[at] = value;
                self.damaged(&rack, &long, &probes, value.into())?;
            }
            long[at] = kept;
        }
        let [a, b, c, d] = FORMAT_BYTES;
        for format in [[0; 4], [0xff; 4], [d, c, b, a]] {
            long[FORMAT..HEADER_SIZE].copy_from_slice(&format);
            for turn in 0..probes.len() + 2 {
                self.damaged(&rack, &long, &probes, turn)?;
            }
        }
        Ok(())
    }

    pub fn damage(&mut self, long: bool) -> Result<(), String> {
        self.headers()?;
        let contended: fn(&Rack) -> bool = |rack| {
            let barred = rack.blocks.iter().any(|b| b.barring.values().any(|set| !set.is_empty()));
            rack.mesh.iter().any(|m| m.data) && rack.mesh.iter().any(|m| !m.data) && barred
        };
        let flying: fn(&Rack) -> bool = |rack| !rack.mesh.is_empty();
        let home: fn(&Rack) -> bool = |rack| rack.mesh.is_empty() && rack.blocks[0].waiting.is_empty();
        let bare: fn(&Rack) -> bool = |rack| rack.mesh.iter().any(model::Message::bare);
        let dirty: fn(&Rack) -> bool = |rack| rack.mesh.iter().any(|m| m.owner == Owner::Dirty);
        for (sizes, wanted) in [
            ((1, 1, 1), flying),
            ((2, 1, 3), home),
            ((2, 1, 3), contended),
            ((2, 1, 3), bare),
            ((2, 1, 3), dirty),
            ((3, 1, 6), contended),
            ((3, 2, 5), contended),
        ] {
            self.every_byte(sizes, long, wanted)?;
        }
        let tries = if long { 100_000 } else { 6000 };
        for sizes in [(2, 2, 64), (8, 16, 16), (15, 1, 15), (15, 32, 64)] {
            self.random_damage(sizes, tries)?;
        }
        Ok(())
    }
}
