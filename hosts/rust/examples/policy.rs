//! Two policies over the engine, each with a flat memory beside it that every answered load must
//! agree with: one that takes turns and works, and a foolish one. A display looks at the state letters
//! of both. `hosts/c/policy.c` is the same program in C and prints the same lines for the same seed.

use hyaloneth::script::records;
use hyaloneth::{Answer, Letter, Owner, Record, Refusal, Reply, Step, View};
use std::fmt;
use std::process::ExitCode;

const ROUNDS: u32 = 3_000;
const FOOLISH_RACKS: u32 = 120;
const FOOLISH_STEPS: u32 = 2_000;
/// The foolish policy hands in lists of so many steps, with room for fewer replies.
const LIST_STEPS: u32 = 64;
const REPLIES: usize = 24;

/// The component where the tape writer reads.
const HOME: u32 = 0;

/// Numbers that a seed decides.
struct Dice(u64);

impl Dice {
    fn new(seed: u64) -> Dice {
        Dice(seed.wrapping_mul(0x9e37_79b9_7f4a_7c15) | 1)
    }

    /// A number below `count`.
    fn draw(&mut self, count: u32) -> u32 {
        self.0 ^= self.0 << 13;
        self.0 ^= self.0 >> 7;
        self.0 ^= self.0 << 17;
        (self.0 >> 32) as u32 % count
    }

    /// A number mostly below `count`, now and then too large for the rack or for its field.
    fn mostly_below(&mut self, count: u32) -> u32 {
        if self.draw(20) == 0 {
            self.draw(300)
        } else {
            self.draw(count)
        }
    }
}

/// A memory without components, tokens or messages: what the loads of a coherent rack give. Its
/// counts are for the report; a bare send takes the owner home without data.
#[derive(Default)]
struct FlatMemory {
    words: [[u32; 8]; 32],
    loads: u32,
    home_loads: u32,
    stores: u32,
    sends: u32,
    bare_sends: u32,
    wrong: u32,
}

impl FlatMemory {
    /// Takes an accepted step. Its numbers are on the rack, since it was accepted.
    fn take(&mut self, step: Step, reply: Reply) {
        match (step, reply) {
            (Step::Load { component, block, word }, Reply::Word(value)) => {
                self.loads += 1;
                self.home_loads += u32::from(component == HOME);
                if self.words[block as usize][word as usize] != value {
                    self.wrong += 1;
                    println!("WRONG: {step} gave {value:#x}");
                }
            }
            (Step::Store { block, word, value, .. }, _) => {
                self.stores += 1;
                self.words[block as usize][word as usize] = value;
            }
            (Step::Send { owner, data, .. }, _) => {
                self.sends += 1;
                self.bare_sends += u32::from(owner && !data);
            }
            _ => {}
        }
    }
}

/// How often the display has shown each letter.
#[derive(Default)]
struct Shown {
    modified: u32,
    owned: u32,
    exclusive: u32,
    shared: u32,
    invalid: u32,
}

/// A board shows E: it and home must have the flat memory's words, and no other component may be
/// valid.
fn exclusive(view: &View, board: u32, block: u32, memory: &mut FlatMemory) {
    let words = memory.words[block as usize];
    for component in 0..=view.boards() {
        let Some(cell) = view.cell(component, block) else { continue };
        if (component == HOME || component == board) && cell.words != words {
            memory.wrong += 1;
            println!(
                "WRONG: board {board} shows E of block {block}, and component {component} has \
                 other words"
            );
        }
        if component != board && cell.valid {
            memory.wrong += 1;
            println!(
                "WRONG: board {board} shows E of block {block}, and component {component} is valid"
            );
        }
    }
}

impl Shown {
    /// The display looks at a block.
    fn show(&mut self, view: &View, block: u32, memory: &mut FlatMemory) {
        for board in 1..=view.boards() {
            match view.letter(board, block) {
                Some(Letter::Modified) => self.modified += 1,
                Some(Letter::Owned) => self.owned += 1,
                Some(Letter::Exclusive) => {
                    self.exclusive += 1;
                    exclusive(view, board, block, memory);
                }
                Some(Letter::Shared) => self.shared += 1,
                Some(Letter::Invalid) => self.invalid += 1,
                None => {
                    memory.wrong += 1;
                    println!("WRONG: board {board} shows no letter of block {block}");
                }
            }
        }
    }
}

impl fmt::Display for Shown {
    fn fmt(&self, f: &mut fmt::Formatter<'_>) -> fmt::Result {
        let Shown { modified, owned, exclusive, shared, invalid } = self;
        write!(f, "{modified} M, {owned} O, {exclusive} E, {shared} S, {invalid} I")
    }
}

/// A rack whose policy takes turns.
struct Turns<'a> {
    rack: Record<'a>,
    memory: FlatMemory,
    shown: Shown,
    steps: u32,
    /// Raises refused because the board waits already, and because it is barred.
    waiting: u32,
    barred: u32,
}

impl Turns<'_> {
    fn view(&self) -> Result<View<'_>, Refusal> {
        self.rack.view()
    }

    fn step(&mut self, step: Step) -> Result<Reply, Refusal> {
        self.steps += 1;
        let reply = self.rack.step(&step)?;
        self.memory.take(step, reply);
        Ok(reply)
    }

    fn show(&mut self, block: u32) -> Result<(), Refusal> {
        self.shown.show(&self.rack.view()?, block, &mut self.memory);
        Ok(())
    }

    /// Raises a claim, if the board may have one now.
    fn raise(&mut self, component: u32, block: u32) -> Result<(), Refusal> {
        match self.step(Step::Raise { component, block }) {
            Err(Refusal::Waiting) => self.waiting += 1,
            Err(Refusal::Barred) => self.barred += 1,
            other => return other.map(|_| ()),
        }
        Ok(())
    }

    fn in_flight(&self) -> Result<u32, Refusal> {
        Ok(self.view()?.messages().len() as u32)
    }

    /// Delivers a message, any of them: the mesh keeps no order. The reply says whom it served.
    /// Refused where nothing is in flight.
    fn deliver(&mut self, dice: &mut Dice) -> Result<Reply, Refusal> {
        let position = dice.draw(self.in_flight()?.max(1));
        self.step(Step::Deliver { position })
    }

    fn deliver_all(&mut self, dice: &mut Dice) -> Result<(), Refusal> {
        while self.in_flight()? > 0 {
            self.deliver(dice)?;
        }
        Ok(())
    }

    /// Delivers messages until one of this block arrives, and gives the component that it served.
    fn deliver_block(&mut self, dice: &mut Dice, block: u32) -> Result<u32, Refusal> {
        loop {
            match self.deliver(dice)? {
                Reply::Served { component, block: served } if served == block => {
                    return Ok(component);
                }
                _ => {}
            }
        }
    }

    /// Brings all tokens of a block to its active board: what is in flight arrives first, then every
    /// other holder forwards.
    fn fill(&mut self, dice: &mut Dice, active: u32, block: u32) -> Result<(), Refusal> {
        self.deliver_all(dice)?;
        for component in 0..=self.view()?.boards() {
            let held = self.view()?.cell(component, block).map_or(0, |cell| cell.held());
            if component != active && held > 0 {
                self.step(Step::Forward { component, block })?;
            }
        }
        self.deliver_all(dice)
    }

    /// A board that has the owner gives back all that it holds of a block. Home has the words already
    /// where the owner is clean, so it goes bare.
    fn give_back(&mut self, component: u32, block: u32) -> Result<(), Refusal> {
        let plain = self.plain(component, block)?;
        let data = self.owner(component, block)?.is_dirty();
        self.step(Step::Send { component, block, target: HOME, plain, owner: true, data })?;
        Ok(())
    }

    /// Some boards claim a block; each gets it whole, stores or only reads, and lowers. Where the
    /// last one only read, it gives the block back.
    fn claim_turn(&mut self, dice: &mut Dice, block: u32) -> Result<(), Refusal> {
        let boards = self.view()?.boards();
        let mut only_read = None;
        for _ in 0..=dice.draw(3) {
            let component = 1 + dice.draw(boards);
            self.raise(component, block)?;
        }
        while let Some(component) = self.view()?.active(block) {
            self.fill(dice, component, block)?;
            self.show(block)?;
            let stores = dice.draw(4);
            for _ in 0..stores {
                let word = dice.draw(8);
                let value = dice.draw(1_000_000_007);
                self.step(Step::Store { component, block, word, value })?;
            }
            self.step(Step::Load { component, block, word: dice.draw(8) })?;
            // A latecomer may displace the active board, which lowers all the same.
            if dice.draw(4) == 0 {
                let latecomer = 1 + dice.draw(boards);
                self.raise(latecomer, block)?;
            }
            self.step(Step::Lower { component, block })?;
            only_read = (stores == 0).then_some(component);
        }
        match only_read {
            Some(component) => self.give_back(component, block),
            None => Ok(()),
        }
    }

    /// A board, or the tape writer at home, reads an unclaimed block. Every token here travels with
    /// the words, or bare to home, which has them; so who is served with the block can read it.
    /// Messages that the reader need not wait for stay in flight. A board that has the owner gives
    /// the block back afterwards, unless many messages are in flight.
    fn read_turn(&mut self, dice: &mut Dice, reader: u32, block: u32) -> Result<(), Refusal> {
        if !self.is_valid(reader, block)? {
            // Without a source all tokens of the block are in flight.
            let component = match self.source(reader, block)? {
                Some(component) => component,
                None => self.deliver_block(dice, block)?,
            };
            if component != reader {
                let plain = self.plain(component, block)?.min(1);
                let owner = plain == 0;
                let (target, data) = (reader, true);
                self.step(Step::Send { component, block, target, plain, owner, data })?;
                // Some readers do not wait: their message stays in flight.
                if self.in_flight()? < 16 && dice.draw(3) == 0 {
                    return Ok(());
                }
                while self.deliver_block(dice, block)? != reader {}
            }
        }
        for _ in 0..=dice.draw(3) {
            self.step(Step::Load { component: reader, block, word: dice.draw(8) })?;
        }
        if reader != HOME && self.owner(reader, block)?.is_present() && self.in_flight()? < 16 {
            self.give_back(reader, block)?;
        }
        Ok(())
    }

    fn is_valid(&self, component: u32, block: u32) -> Result<bool, Refusal> {
        Ok(self.view()?.cell(component, block).is_some_and(|cell| cell.valid))
    }

    fn plain(&self, component: u32, block: u32) -> Result<u32, Refusal> {
        Ok(self.view()?.cell(component, block).map_or(0, |cell| cell.plain))
    }

    fn owner(&self, component: u32, block: u32) -> Result<Owner, Refusal> {
        Ok(self.view()?.cell(component, block).map_or(Owner::Away, |cell| cell.owner))
    }

    /// The component other than the reader, with data, that has the most plain tokens.
    fn source(&self, reader: u32, block: u32) -> Result<Option<u32>, Refusal> {
        let view = self.view()?;
        let mut best: Option<(u32, u32)> = None;
        for component in (0..=view.boards()).filter(|&component| component != reader) {
            match view.cell(component, block) {
                Some(cell) if cell.valid && best.is_none_or(|(_, most)| cell.plain > most) => {
                    best = Some((component, cell.plain));
                }
                _ => {}
            }
        }
        Ok(best.map(|(component, _)| component))
    }
}

/// Boards and the tape writer take turns; no step but a raise is ever refused. Gives the number of
/// wrong loads.
fn take_turns(seed: u64, boards: u32, blocks: u32, tokens: u32) -> Result<u32, Refusal> {
    let mut buffer = vec![0; Record::len_for(blocks)?];
    let rack = Record::open(&mut buffer, boards, blocks, tokens)?;
    let (memory, shown) = (FlatMemory::default(), Shown::default());
    let mut turns = Turns { rack, memory, shown, steps: 0, waiting: 0, barred: 0 };
    let mut dice = Dice::new(seed);
    for _ in 0..ROUNDS {
        let block = dice.draw(blocks);
        match dice.draw(3) {
            0 => turns.claim_turn(&mut dice, block)?,
            1 => {
                let reader = 1 + dice.draw(boards);
                turns.read_turn(&mut dice, reader, block)?;
            }
            _ => turns.read_turn(&mut dice, HOME, block)?,
        }
        turns.show(block)?;
    }
    println!(
        "turns: boards {boards}, blocks {blocks}, tokens {tokens}: {} steps, {} stores, {} loads \
         ({} at home), {} sends ({} bare); letters: {}; raises refused: {} waiting, {} barred",
        turns.steps,
        turns.memory.stores,
        turns.memory.loads,
        turns.memory.home_loads,
        turns.memory.sends,
        turns.memory.bare_sends,
        turns.shown,
        turns.waiting,
        turns.barred
    );
    Ok(turns.memory.wrong)
}

/// Appends a random step's record to the list, sometimes damaged; refused where its numbers are no
/// step.
fn foolish_step(
    dice: &mut Dice,
    sizes: [u32; 3],
    lazy: bool,
    list: &mut Vec<u8>,
) -> Result<(), Refusal> {
    let [boards, blocks, tokens] = sizes;
    let mut kind = dice.draw(12);
    if lazy && (kind >= 9 || kind >= 6 && dice.draw(64) != 0) {
        kind = 3;
    }
    let component = dice.mostly_below(boards + 1);
    let block = dice.mostly_below(blocks);
    let step = match kind {
        0 | 1 => Step::Load { component, block, word: dice.mostly_below(8) },
        2 => {
            let word = dice.mostly_below(8);
            Step::Store { component, block, word, value: dice.draw(1_000_000_007) }
        }
        3..=5 => {
            let target = dice.mostly_below(boards + 1);
            let plain =
                if !lazy && dice.draw(4) == 0 { dice.draw(tokens + 2) } else { dice.draw(3) };
            let owner = dice.draw(2) == 1;
            let data = dice.draw(2) == 1;
            Step::Send { component, block, target, plain, owner, data }
        }
        6..=8 => {
            let position = if dice.draw(4) == 0 { dice.draw(300) } else { dice.draw(2) };
            Step::Deliver { position }
        }
        9 => Step::Raise { component, block },
        10 => Step::Lower { component, block },
        _ => Step::Forward { component, block },
    };
    let mut record = step.to_bytes()?;
    if !lazy && dice.draw(30) == 0 {
        let len = record.len() as u32;
        match dice.draw(3) {
            0 => {
                let at = dice.draw(len) as usize;
                record[at] ^= 1 << dice.draw(8);
            }
            1 => record.truncate(dice.draw(len) as usize),
            _ => record.push(dice.draw(256) as u8),
        }
    }
    list.extend(record);
    Ok(())
}

/// Hands in random steps, sound and unsound ones, in lists. Gives the number of wrong loads.
fn be_foolish(seed: u64) -> Result<u32, Refusal> {
    let mut dice = Dice::new(seed);
    let mut accepted = 0;
    let mut refused = [0; 21];
    let (mut loads, mut home_loads, mut stores, mut wrong) = (0, 0, 0, 0);
    let (mut sends, mut bare_sends) = (0, 0);
    let mut shown = Shown::default();
    for rack_number in 0..FOOLISH_RACKS {
        // A lazy rack delivers little and claims nothing, so that its mesh becomes full.
        let lazy = rack_number % 8 == 0;
        let boards = 1 + dice.draw(4);
        let blocks = if lazy { 2 } else { 1 + dice.draw(2) };
        let tokens = if lazy { 64 } else { boards + dice.draw(3) };
        let mut buffer = vec![0; Record::len_for(blocks)?];
        let mut rack = Record::open(&mut buffer, boards, blocks, tokens)?;
        let mut memory = FlatMemory::default();
        for _ in 0..FOOLISH_STEPS / LIST_STEPS {
            let mut list = Vec::new();
            for _ in 0..LIST_STEPS {
                if let Err(refusal) =
                    foolish_step(&mut dice, [boards, blocks, tokens], lazy, &mut list)
                {
                    refused[refusal.number() as usize] += 1;
                }
            }
            let mut cut = records(&list);
            let mut answers = [Answer::default(); REPLIES];
            let mut at = 0;
            while at < list.len() {
                let made = rack.run_some(&list, &mut at, &mut answers);
                for answer in &answers[..made] {
                    let record = cut.next().unwrap_or_default();
                    match answer.get() {
                        Ok(reply) => {
                            accepted += 1;
                            memory.take(Step::from_bytes(record)?, reply);
                        }
                        Err(refusal) => refused[refusal.number() as usize] += 1,
                    }
                }
            }
            for block in 0..blocks {
                shown.show(&rack.view()?, block, &mut memory);
            }
        }
        wrong += memory.wrong + wrong_totals(&rack.view()?);
        loads += memory.loads;
        home_loads += memory.home_loads;
        stores += memory.stores;
        sends += memory.sends;
        bare_sends += memory.bare_sends;
    }
    println!(
        "foolish: {FOOLISH_RACKS} racks: {accepted} steps accepted, of them {stores} stores, \
         {loads} loads ({home_loads} at home), {sends} sends ({bare_sends} bare); letters: \
         {shown}; refused:"
    );
    for refusal in Refusal::ALL {
        let count = refused[refusal.number() as usize];
        if count > 0 {
            println!("  {:2} {:<12} {count}", refusal.number(), refusal.word());
        }
    }
    Ok(wrong)
}

/// How many blocks have not T tokens, or not one owner.
fn wrong_totals(view: &View) -> u32 {
    let mut wrong = 0;
    for block in 0..view.blocks() {
        let cells = (0..=view.boards()).filter_map(|component| view.cell(component, block));
        let messages = view.messages().filter(|message| message.block == block);
        let (mut tokens, mut owners) = (0, 0);
        for (plain, owner) in
            cells.map(|c| (c.plain, c.owner)).chain(messages.map(|m| (m.plain, m.owner)))
        {
            tokens += plain + u32::from(owner.is_present());
            owners += u32::from(owner.is_present());
        }
        if tokens != view.tokens() || owners != 1 {
            wrong += 1;
            println!("WRONG: block {block} has {tokens} tokens, {owners} owners");
        }
    }
    wrong
}

fn play(seed: u64) -> Result<u32, Refusal> {
    let mut wrong = 0;
    for [boards, blocks, tokens] in [[1, 1, 1], [2, 1, 2], [4, 6, 5], [15, 32, 15], [15, 4, 64]] {
        wrong += take_turns(seed, boards, blocks, tokens)?;
    }
    wrong += be_foolish(seed)?;
    Ok(wrong)
}

fn main() -> ExitCode {
    let seed = match std::env::args().nth(1).map(|seed| seed.parse()) {
        None => 1,
        Some(Ok(seed)) => seed,
        Some(Err(_)) => {
            eprintln!("usage: policy [SEED], a decimal number");
            return ExitCode::from(2);
        }
    };
    match play(seed) {
        Ok(0) => {
            println!("every answered load agrees with the flat memory");
            ExitCode::SUCCESS
        }
        Ok(wrong) => {
            println!("{wrong} differences");
            ExitCode::FAILURE
        }
        Err(refusal) => {
            println!("a step that must be accepted was {refusal}");
            ExitCode::FAILURE
        }
    }
}
