//! Seeded lists of steps that reach deep states: each step is chosen with a look at the model's rack, so that most fit and every refusal is met.

use crate::model::{self, Block, Rack, Step, HOME};
use crate::rng::Rng;

/// What a stretch of the list is about.
#[derive(Clone, Copy, PartialEq, Eq)]
pub enum Mood {
    /// All tokens of a block go to one board, which then stores and loads.
    Gather,
    /// Many small messages, few deliveries.
    Flood,
    /// Mostly deliveries.
    Drain,
    /// Mostly raises, lowers and forwards.
    Contend,
    /// Anything.
    Mixed,
}

const MOODS: [Mood; 5] = [Mood::Gather, Mood::Flood, Mood::Drain, Mood::Contend, Mood::Mixed];

impl Mood {
    /// How often each kind is chosen, load to forward.
    fn weights(self) -> [usize; 7] {
        match self {
            Mood::Gather => [12, 14, 36, 30, 1, 5, 2],
            Mood::Flood => [3, 1, 76, 2, 6, 2, 10],
            Mood::Drain => [6, 4, 8, 66, 1, 9, 6],
            Mood::Contend => [4, 2, 8, 18, 26, 22, 20],
            Mood::Mixed => [1; 7],
        }
    }
}

pub struct Lists {
    pub rng: Rng,
    mood: Mood,
    left: usize,
    board: u8,
    block: u8,
    /// Whether this stretch loads where it would store: what is gathered from home then stays clean.
    reads: bool,
}

impl Lists {
    pub fn new(seed: u64) -> Lists {
        Lists { rng: Rng::new(seed), mood: Mood::Mixed, left: 0, board: 1, block: 0, reads: false }
    }

    /// The bytes of the next step, now and then torn.
    pub fn bytes(&mut self, rack: &Rack) -> Vec<u8> {
        let bytes = model::write(self.step(rack));
        if self.rng.percent(4) {
            tear(&mut self.rng, bytes)
        } else {
            bytes
        }
    }

    pub fn step(&mut self, rack: &Rack) -> Step {
        if self.left == 0 {
            self.mood = self.rng.pick(&MOODS);
            self.left = 10 + self.rng.below(240);
            self.board = 1 + self.rng.below(rack.boards.into()) as u8;
            self.block = self.rng.below(rack.blocks.len()) as u8;
            self.reads = self.rng.below(3) == 0;
        }
        self.left -= 1;
        self.in_mood(rack, self.mood)
    }

    pub fn in_mood(&mut self, rack: &Rack, mood: Mood) -> Step {
        let weights = mood.weights();
        let mut draw = self.rng.below(weights.iter().sum());
        let mut kind = 0;
        while draw >= weights[kind] {
            draw -= weights[kind];
            kind += 1;
        }
        match kind {
            0 => {
                let block = self.block(rack, mood);
                Step::Load { component: self.reader(rack, block, mood), block, word: self.word() }
            }
            1 => {
                let block = self.block(rack, mood);
                let component = self.writer(rack, block, mood);
                self.store(rack, component, block)
            }
            3 if !rack.mesh.is_empty() || self.rng.percent(15) => Step::Deliver { position: self.position(rack, mood) },
            2 | 3 => self.send(rack, mood),
            4 => {
                let block = self.block(rack, mood);
                let component = self.component(rack);
                Step::Raise { component, block }
            }
            5 => {
                let block = self.claimed(rack, mood);
                let waiting: Vec<u8> = rack.blocks.get(usize::from(block)).map_or(Vec::new(), |b| b.waiting.iter().copied().collect());
                let component = if waiting.is_empty() || self.rng.percent(15) { self.component(rack) } else { self.rng.pick(&waiting) };
                Step::Lower { component, block }
            }
            _ => {
                let block = self.claimed(rack, mood);
                Step::Forward { component: self.holder(rack, block), block }
            }
        }
    }

    fn send(&mut self, rack: &Rack, mood: Mood) -> Step {
        let mut block = self.block(rack, mood);
        let active = rack.blocks.get(usize::from(block)).and_then(Block::active);
        if let (Some(board), true) = (active, mood != Mood::Contend && self.rng.percent(80)) {
            // A claimed block takes no send: another block, or the claim ends.
            let free: Vec<u8> = (0..).zip(&rack.blocks).filter(|(_, b)| b.active().is_none()).map(|(b, _)| b).collect();
            if free.is_empty() || mood == Mood::Gather {
                return Step::Lower { component: board, block };
            }
            block = self.rng.pick(&free);
        }
        let mut component = self.holder(rack, block);
        if mood == Mood::Gather && component == self.board && self.rng.percent(90) {
            component = self.holder(rack, block);
        }
        let cell = rack.blocks.get(usize::from(block)).and_then(|b| b.cells.get(usize::from(component))).cloned().unwrap_or_default();
        if cell.held() == 0 && !rack.mesh.is_empty() && self.rng.percent(if mood == Mood::Flood { 20 } else { 75 }) {
            return Step::Deliver { position: self.position(rack, mood) };
        }
        if mood == Mood::Gather && component == self.board && self.rng.percent(80) {
            return self.store(rack, component, block);
        }
        let target = match self.rng.below(100) {
            0..3 => component,
            3..5 => self.component(rack),
            _ if mood == Mood::Gather => self.board,
            _ => {
                let other = self.rng.below(rack.boards.into()) as u8;
                other + u8::from(other >= component)
            }
        };
        let all = mood == Mood::Gather && self.rng.percent(85);
        let plain = match self.rng.below(100) {
            0..4 => cell.plain as u8 + 1,
            4..6 => self.rng.byte(),
            6..10 => 0,
            _ if all => cell.plain as u8,
            10..40 if mood != Mood::Flood => self.rng.below(cell.plain as usize + 1) as u8,
            _ => cell.plain.min(1) as u8,
        };
        let owner = match (cell.owner.here(), mood) {
            (true, _) if all || cell.plain == 0 => !self.rng.percent(4),
            (true, Mood::Flood) => self.rng.percent(3),
            (true, _) => self.rng.percent(30),
            (false, _) => self.rng.percent(3),
        };
        // Every third owner goes home without data, clean or dirty: some are accepted and some meet 12.
        if owner && component != HOME && self.rng.below(3) == 0 {
            return Step::Send { component, block, target: HOME, plain, owner, data: false };
        }
        let data = match (owner, cell.valid) {
            (true, _) => !self.rng.percent(6),
            (false, true) => self.rng.percent(50),
            (false, false) => self.rng.percent(10),
        };
        Step::Send { component, block, target, plain, owner, data }
    }

    /// A store, now and then of the value that is there already: it makes the owner dirty all the same. A load in a stretch that reads.
    fn store(&mut self, rack: &Rack, component: u8, block: u8) -> Step {
        let word = self.word();
        if self.reads {
            return Step::Load { component, block, word };
        }
        let cell = rack.blocks.get(usize::from(block)).and_then(|b| b.cells.get(usize::from(component)));
        let there = cell.and_then(|cell| cell.words.get(usize::from(word)).copied());
        let value = there.filter(|_| self.rng.percent(25)).unwrap_or_else(|| self.rng.draw() as u32);
        Step::Store { component, block, word, value }
    }

    /// A block, mostly the one of this stretch where one matters; now and then off the rack.
    fn block(&mut self, rack: &Rack, mood: Mood) -> u8 {
        let blocks = rack.blocks.len();
        match self.rng.below(100) {
            0 => blocks as u8,
            1 if self.rng.percent(50) => self.rng.byte(),
            2..80 if matches!(mood, Mood::Gather | Mood::Contend) => self.block.min(blocks as u8 - 1),
            _ => self.rng.below(blocks) as u8,
        }
    }

    fn claimed(&mut self, rack: &Rack, mood: Mood) -> u8 {
        let claimed: Vec<u8> = (0..).zip(&rack.blocks).filter(|(_, b)| b.active().is_some()).map(|(b, _)| b).collect();
        if claimed.is_empty() || self.rng.percent(15) {
            self.block(rack, mood)
        } else {
            self.rng.pick(&claimed)
        }
    }

    /// Any component; now and then off the rack.
    fn component(&mut self, rack: &Rack) -> u8 {
        match self.rng.below(60) {
            0 => rack.boards + 1,
            1 if self.rng.percent(50) => self.rng.byte(),
            _ => self.rng.below(usize::from(rack.boards) + 1) as u8,
        }
    }

    /// Mostly a component that holds tokens of the block.
    fn holder(&mut self, rack: &Rack, block: u8) -> u8 {
        let holders: Vec<u8> = rack
            .blocks
            .get(usize::from(block))
            .map_or(Vec::new(), |b| (0..).zip(&b.cells).filter(|(_, c)| c.held() > 0).map(|(c, _)| c).collect());
        if holders.is_empty() || self.rng.percent(8) {
            self.component(rack)
        } else {
            self.rng.pick(&holders)
        }
    }

    /// Who loads: while gathering mostly the board of the stretch; else mostly a holder, home like any other.
    fn reader(&mut self, rack: &Rack, block: u8, mood: Mood) -> u8 {
        if mood == Mood::Gather && self.rng.percent(70) {
            return self.board;
        }
        self.holder(rack, block)
    }

    /// Who stores: chosen alike, but seldom home, where a store is always refused.
    fn writer(&mut self, rack: &Rack, block: u8, mood: Mood) -> u8 {
        match self.reader(rack, block, mood) {
            HOME if self.rng.percent(90) => 1 + self.rng.below(rack.boards.into()) as u8,
            component => component,
        }
    }

    fn word(&mut self) -> u8 {
        match self.rng.below(80) {
            0 => 8,
            1 => self.rng.byte(),
            _ => self.rng.below(8) as u8,
        }
    }

    fn position(&mut self, rack: &Rack, mood: Mood) -> u8 {
        let count = rack.mesh.len();
        if mood == Mood::Gather && self.rng.percent(70) {
            if let Some(position) = rack.mesh.iter().position(|m| m.block == self.block) {
                return position as u8;
            }
        }
        match self.rng.below(100) {
            0..3 => count as u8,
            3 => self.rng.byte(),
            4..30 => 0,
            30..40 => count.saturating_sub(1) as u8,
            _ => self.rng.below(count.max(1)) as u8,
        }
    }
}

/// How many ways `tear` has.
pub const TEARS: usize = 14;

/// Damages a record in one of many ways. A few leave it a record, of another step.
pub fn tear(rng: &mut Rng, bytes: Vec<u8>) -> Vec<u8> {
    let way = rng.below(TEARS);
    tear_so(rng, bytes, way)
}

pub fn tear_so(rng: &mut Rng, mut bytes: Vec<u8>, way: usize) -> Vec<u8> {
    let last = bytes.len() - 1;
    // The fields, for the ways that move whole ones.
    let mut fields: Vec<(u8, Vec<u8>)> = Vec::new();
    let mut at = 3;
    while at + 3 <= bytes.len() {
        let end = (at + 3 + usize::from(bytes[at + 1]) * 256 + usize::from(bytes[at + 2])).min(bytes.len());
        fields.push((bytes[at], bytes[at + 3..end].to_vec()));
        at = end;
    }
    let some = rng.below(fields.len().max(1));
    match way {
        // cut short, empty too
        0 => bytes.truncate(rng.below(bytes.len())),
        // bytes behind it, counted or not
        1 => bytes.push(rng.byte()),
        2 => {
            bytes.push(rng.byte());
            bytes[2] += 1;
        }
        // two records as one step
        3 => bytes.extend(bytes.clone()),
        // another kind
        4 => bytes[0] = rng.pick(&[0x00, 0x0f, 0x10, 0x11, 0x12, 0x13, 0x14, 0x15, 0x16, 0x17, 0x18, 0xff]),
        // another length of the body, low byte and high byte
        5 => bytes[2] = rng.byte(),
        6 => bytes[1] = rng.byte(),
        // any byte
        7 => {
            let at = rng.below(last + 1);
            bytes[at] = rng.byte();
        }
        // a field missing, doubled, out of order, of another tag or of another length
        8 => {
            if !fields.is_empty() {
                fields.remove(some);
            }
            bytes = model::record(bytes[0], &fields);
        }
        9 => {
            if let Some(field) = fields.get(some).cloned() {
                fields.insert(some, field);
            }
            bytes = model::record(bytes[0], &fields);
        }
        10 => {
            let other = rng.below(fields.len().max(1));
            if !fields.is_empty() {
                fields.swap(some, other);
            }
            bytes = model::record(bytes[0], &fields);
        }
        11 => {
            if let Some(field) = fields.get_mut(some) {
                field.0 = rng.below(12) as u8;
            }
            bytes = model::record(bytes[0], &fields);
        }
        12 => {
            if let Some(field) = fields.get_mut(some) {
                field.1.resize(rng.below(6), 0);
            }
            bytes = model::record(bytes[0], &fields);
        }
        // a flag that is neither 00 nor 01, or bytes of no meaning
        _ => {
            if bytes[0] == 0x12 && last == 26 {
                let at = rng.pick(&[22, 26]);
                bytes[at] = 2 + rng.below(254) as u8;
            } else {
                for byte in &mut bytes[1..] {
                    *byte = rng.byte();
                }
            }
        }
    }
    bytes
}
