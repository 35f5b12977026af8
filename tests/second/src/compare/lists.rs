//! Lists from an opening on.

use super::{filled, Harness, Sizes, RACKS, SPARE};
use second::calls::{byte_difference, hex, Layout, ENGINES, LAYOUTS, RECORD};
use second::coverage::{kind_of, Coverage};
use second::lists::Lists;
use second::model::{self, Answer, Cell, FlatMemory, Owner, Rack, Step, HOME};
use second::owners::{Look, Trail};
use second::{blind, record, reply};
use std::collections::BTreeSet;

impl Harness {
    pub fn lists(&mut self, steps: u64) -> Result<(), String> {
        RACKS.iter().for_each(|&(sizes, _)| self.coverage.expect(sizes));
        while self.coverage.steps < steps {
            let mut draw = self.rng.below(RACKS.iter().map(|(_, weight)| weight).sum());
            let mut rack = 0;
            while draw >= RACKS[rack].1 {
                draw -= RACKS[rack].1;
                rack += 1;
            }
            let length = (200 + self.rng.below(2000)) as u64;
            let seed = self.rng.draw();
            self.list(seed, RACKS[rack].0, length.min(steps - self.coverage.steps))?;
        }
        Ok(())
    }

    /// A list from an opening on: the model keeps its rack as typed values all along, the engines keep bytes.
    fn list(&mut self, seed: u64, (boards, blocks, tokens): Sizes, steps: u64) -> Result<(), String> {
        let mut list = List::open(seed, (boards, blocks, tokens))?;
        let mut lists = Lists::new(seed);
        self.coverage.lists += 1;
        for _ in 0..steps {
            let bytes = lists.bytes(&list.rack);
            let result = list.step(bytes, &mut self.coverage)?;
            self.coverage.steps += 1;
            self.coverage.count(kind_of(list.made.last().expect("a step was made")), result);
        }
        (0..blocks as usize).try_for_each(|block| list.same_state(block))
    }
}

/// How many state letters are asked in turn after a step; racks with no more places have all of them asked.
const LETTERS: u32 = 12;

/// The tokens that each component holds, block by block.
fn held(rack: &Rack) -> Vec<u32> {
    rack.blocks.iter().flat_map(|block| block.cells.iter().map(Cell::held)).collect()
}

/// An owner as the blind program shows it: whether it is dirty.
fn shown(owner: Owner) -> Option<bool> {
    owner.here().then_some(owner == Owner::Dirty)
}

/// A list in progress.
pub(super) struct List {
    seed: u64,
    sizes: Sizes,
    pub(super) rack: Rack,
    /// The rack of the program that was written from document 01 alone.
    blind: blind::Rack,
    flat: FlatMemory,
    trail: Trail,
    /// The buffer as the model has it in each layout, and each engine's.
    want: Vec<Vec<u8>>,
    buffers: Vec<Vec<u8>>,
    made: Vec<Vec<u8>>,
    replies: Vec<u64>,
    /// Which letter is next in turn.
    letter: u32,
}

/// A buffer as it is lent for an opening: each byte of a pattern, some behind the record.
fn lent(seed: u64, layout: &Layout, blocks: u32) -> Vec<u8> {
    filled(seed, (layout.length)(blocks as usize) + SPARE)
}

impl List {
    pub(super) fn open(seed: u64, sizes: Sizes) -> Result<List, String> {
        let (boards, blocks, tokens) = sizes;
        let want: Vec<Vec<u8>> = LAYOUTS.iter().map(|layout| lent(seed, layout, blocks)).collect();
        let rack = Rack::open(boards, blocks, tokens).expect("sizes in range");
        let blind = blind::Rack::open(boards, blocks, tokens).map_err(|number| format!("blind: refused {number} at {sizes:?}"))?;
        let mut list = List {
            seed,
            sizes,
            trail: Trail::new(&rack),
            rack,
            blind,
            flat: FlatMemory::new(blocks),
            buffers: ENGINES.iter().map(|engine| want[engine.layout].clone()).collect(),
            want,
            made: Vec::new(),
            replies: Vec::new(),
            letter: 0,
        };
        list.encode();
        for (i, engine) in ENGINES.iter().enumerate() {
            let given = (engine.open)(&mut list.buffers[i], boards, blocks, tokens);
            list.same(i, reply::done(0), given)?;
        }
        Ok(list)
    }

    pub(super) fn step(&mut self, bytes: Vec<u8>, coverage: &mut Coverage) -> Result<u64, String> {
        let read = model::read(&bytes);
        let block = read.ok().and_then(|step| self.block_of(step));
        let before = held(&self.rack);
        let look = read.ok().map(|step| Look::new(&self.rack, step));
        self.made.push(bytes);
        let reply = read.and_then(|step| self.rack.step(step));
        let want = reply::of_reply(reply);
        let blind = reply::of_blind(self.blind.step(self.made.last().expect("just pushed")));
        if blind != want {
            return Err(self.case(&format!("blind: {} where the model gives {}", reply::say(blind), reply::say(want))));
        }
        if reply.is_ok() {
            self.encode();
            block.map_or(Ok(()), |block| self.same_state(block.into()))?;
        }
        for (i, engine) in ENGINES.iter().enumerate() {
            let bytes = self.made.last().expect("just pushed");
            let given = (engine.step)(&mut self.buffers[i], bytes);
            self.same(i, want, given)?;
        }
        if let (Ok(step), Some(look)) = (read, look) {
            coverage.at_home(&self.rack, step, reply);
            coverage.owners(self.trail.step(&look, step, reply));
            coverage.changed(&look, step, reply);
            reply.map_or(Ok(()), |answer| self.demand(step, answer, &before, coverage))?;
            reply.ok().and(block).map_or(Ok(()), |block| self.home_kept(block))?;
        }
        self.replies.push(want);
        coverage.most_in_flight = coverage.most_in_flight.max(self.rack.mesh.len());
        self.letters(block.filter(|_| reply.is_ok()), coverage)?;
        Ok(want)
    }

    /// The steps so far, in one run on a record that is opened anew, give the same replies and bytes.
    pub(super) fn in_one_run(&self) -> Result<(), String> {
        let (boards, blocks, tokens) = self.sizes;
        let list = self.made.concat();
        for (engine, single) in ENGINES.iter().zip(&self.buffers) {
            let mut buffer = lent(self.seed, &LAYOUTS[engine.layout], blocks);
            let mut replies = vec![0; self.made.len()];
            (engine.open)(&mut buffer, boards, blocks, tokens);
            let count = (engine.run)(&mut buffer, &list, &mut 0, &mut replies);
            if count != replies.len() || replies != self.replies || buffer != *single {
                return Err(self.case(&format!("{}: a run is not as its single steps", engine.name)));
            }
        }
        Ok(())
    }

    fn encode(&mut self) {
        for (layout, want) in LAYOUTS.iter().zip(&mut self.want) {
            (layout.encode)(&self.rack, want);
        }
    }

    /// The block that a step is about.
    fn block_of(&self, step: Step) -> Option<u8> {
        match step {
            Step::Load { block, .. } | Step::Store { block, .. } | Step::Send { block, .. } => Some(block),
            Step::Raise { block, .. } | Step::Lower { block, .. } | Step::Forward { block, .. } => Some(block),
            Step::Deliver { position } => self.rack.mesh.get(usize::from(position)).map(|m| m.block),
        }
    }

    fn same(&self, i: usize, want: u64, given: u64) -> Result<(), String> {
        if given != want {
            return Err(self.case(&format!("{}: {} where the model gives {}", ENGINES[i].name, reply::say(given), reply::say(want))));
        }
        match byte_difference(&self.want[ENGINES[i].layout], &self.buffers[i]) {
            Some(what) => Err(self.case(&format!("{}: {what}", ENGINES[i].name))),
            None => Ok(()),
        }
    }

    /// What the blind program has of a block and in flight is what the model has.
    fn same_state(&self, block: usize) -> Result<(), String> {
        let mine = &self.rack.blocks[block];
        let cell = |cell: &Cell| (cell.plain, shown(cell.owner), cell.valid, cell.words);
        let cells = (0..).zip(&mine.cells).all(|(c, mine)| self.blind.cell(c, block) == cell(mine));
        let list = |set: &BTreeSet<u8>| set.iter().map(|&board| board.into()).collect::<Vec<u32>>();
        let claims = self.blind.claims(block) == (list(&mine.waiting), mine.barring.values().map(list).collect());
        let mesh = self.rack.mesh.iter();
        let mesh = mesh.map(|m| (m.sender.into(), m.target.into(), m.block.into(), m.plain, shown(m.owner), m.data, m.words));
        if cells && claims && self.blind.mesh().into_iter().eq(mesh) {
            return Ok(());
        }
        Err(self.case(&format!("blind: another state than the model's, block {block} or the mesh")))
    }

    /// The record decoded is the model's rack and sound, each block's tokens are the opening's T, the flat memory gives the words of loads, and a
    /// deliver's tokens came to the place that it says and to no other.
    fn demand(&mut self, step: Step, answer: Answer, before: &[u32], coverage: &mut Coverage) -> Result<(), String> {
        match record::decode(&self.buffers[0]) {
            Some(rack) if rack == self.rack => {}
            _ => return Err(self.case("the decoded record is not the model's rack")),
        }
        if !self.rack.sound() {
            return Err(self.case("the record is not sound after an accepted step"));
        }
        let kept = (0..self.sizes.1 as u8).all(|block| {
            let total = self.rack.total(block);
            total.owners == 1 && total.plain + total.owners == self.sizes.2
        });
        if !kept {
            return Err(self.case("a block's tokens are not T"));
        }
        match (step, answer) {
            (Step::Store { block, word, value, .. }, _) => self.flat.store(block, word, value),
            (Step::Load { component, block, word }, Answer::Word(given)) => {
                coverage.flat_loads += 1;
                coverage.flat_home_loads += u64::from(component == HOME);
                let flat = self.flat.load(block, word);
                if given != flat {
                    return Err(self.case(&format!("load gives {given:08x}, the flat memory {flat:08x}")));
                }
            }
            (Step::Deliver { .. }, Answer::Served { component, block }) => {
                let place = usize::from(block) * self.rack.blocks[0].cells.len() + usize::from(component);
                let after = held(&self.rack);
                if after[place] <= before[place] || before.iter().zip(&after).filter(|(before, after)| before != after).count() != 1 {
                    return Err(self.case(&format!("component {component} and block {block} are not what the deliver served")));
                }
            }
            _ => {}
        }
        Ok(())
    }

    /// What lets a clean owner go home bare: home has the flat memory's words of its block.
    fn home_kept(&self, block: u8) -> Result<(), String> {
        let home = &self.rack.blocks[usize::from(block)].cells[usize::from(HOME)];
        if self.rack.clean(block) && home.words != *self.flat.words(block) {
            return Err(self.case(&format!("the owner of block {block} is clean, and home has other words than the flat memory")));
        }
        Ok(())
    }

    /// All state letters of a small rack after each step; of a large one those of the block that changed and a few others, in turn. Home and
    /// places off the rack are among them.
    fn letters(&mut self, changed: Option<u8>, coverage: &mut Coverage) -> Result<(), String> {
        let (components, blocks) = (self.sizes.0 + 1, self.sizes.1);
        let places = components * blocks + 1;
        if let (Some(block), true) = (changed, places > LETTERS) {
            for component in 1..components {
                self.same_letter(component, block.into(), coverage)?;
            }
        }
        for _ in 0..places.min(LETTERS) {
            let (component, block) = match self.letter % places {
                0 if self.made.len().is_multiple_of(2) => (components, self.letter % 8),
                0 => (self.letter % 8, blocks),
                i => ((i - 1) % components, (i - 1) / components),
            };
            self.letter = self.letter.wrapping_add(1);
            self.same_letter(component, block, coverage)?;
        }
        Ok(())
    }

    fn same_letter(&self, component: u32, block: u32, coverage: &mut Coverage) -> Result<(), String> {
        let want = reply::of_letter(self.rack.letter(component, block));
        coverage.letter(&self.rack, component, block, want);
        if reply::of_blind_letter(self.blind.letter(component, block)) != want {
            return Err(self.case(&format!("blind: another letter than the model's, component {component}, block {block}")));
        }
        for (engine, buffer) in ENGINES.iter().zip(&self.buffers) {
            let given = (engine.letter)(buffer, component, block);
            if given != want {
                let (name, given, want) = (engine.name, reply::say(given), reply::say(want));
                let what = format!("{name}: {given} where the model gives {want}, at component {component}, block {block}");
                return Err(self.case(&what) + &format!("letter {component} {block}\n"));
            }
        }
        Ok(())
    }

    fn case(&self, what: &str) -> String {
        let (boards, blocks, tokens) = self.sizes;
        let mut text = format!("fill {} {}\nopen {boards} {blocks} {tokens}\n", self.seed, self.want[RECORD].len());
        for bytes in &self.made {
            text.push_str(&format!("step {}\n", hex(bytes)));
        }
        format!("# {what}\n{text}")
    }
}
