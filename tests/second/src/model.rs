//! Document 01 a second time, as typed values, with document 02's Nos. 1, 2, 4 and 7: what a rack is, when it is sound, what each step does
//! and which refusal it meets.
//!
//! It is written for reading beside the paper, section by section, and knows nothing of the record's bytes (`record` does).

use std::collections::{BTreeMap, BTreeSet};

// ---- The rack

pub const HOME: u8 = 0;
pub const WORDS: usize = 8;
pub const MESH_LIMIT: usize = 64;
pub const MOST_BOARDS: u32 = 15;
pub const MOST_BLOCKS: u32 = 32;
pub const MOST_TOKENS: u32 = 64;

pub type Words = [u32; WORDS];

/// The owner token as a component or a message has it: not at all, or with its mark.
#[derive(Clone, Copy, Debug, Default, PartialEq, Eq, Hash)]
pub enum Owner {
    #[default]
    Away,
    Dirty,
    Clean,
}

impl Owner {
    pub fn here(self) -> bool {
        self != Owner::Away
    }

    /// Whether it may go to this target without data: home has the words of a clean owner already.
    pub fn may_go_bare(self, target: u8) -> bool {
        self == Owner::Clean && target == HOME
    }
}

/// What a component has of a block.
#[derive(Clone, Debug, Default, PartialEq, Eq, Hash)]
pub struct Cell {
    pub plain: u32,
    pub owner: Owner,
    pub valid: bool,
    pub words: Words,
}

impl Cell {
    /// "Held" is plain plus owner.
    pub fn held(&self) -> u32 {
        self.plain + u32::from(self.owner.here())
    }
}

#[derive(Clone, Debug, PartialEq, Eq, Hash)]
pub struct Message {
    pub sender: u8,
    pub target: u8,
    pub block: u8,
    pub plain: u32,
    pub owner: Owner,
    pub data: bool,
    pub words: Words,
}

impl Message {
    pub fn carried(&self) -> u32 {
        self.plain + u32::from(self.owner.here())
    }

    /// Whether it brings the owner without data.
    pub fn bare(&self) -> bool {
        self.owner.here() && !self.data
    }
}

#[derive(Clone, Debug, PartialEq, Eq, Hash)]
pub struct Block {
    /// By component, home first.
    pub cells: Vec<Cell>,
    pub waiting: BTreeSet<u8>,
    /// By board; every board has one.
    pub barring: BTreeMap<u8, BTreeSet<u8>>,
}

impl Block {
    /// The active board of a block is the lowest-numbered waiting board.
    pub fn active(&self) -> Option<u8> {
        self.waiting.first().copied()
    }
}

#[derive(Clone, Debug, PartialEq, Eq, Hash)]
pub struct Rack {
    pub boards: u8,
    pub tokens: u32,
    pub blocks: Vec<Block>,
    /// Oldest first.
    pub mesh: Vec<Message>,
}

/// Sizes: N 1 to 15, B 1 to 32, T from N to 64.
fn sizes_in_range(boards: u32, blocks: u32, tokens: u32) -> bool {
    (1..=MOST_BOARDS).contains(&boards) && (1..=MOST_BLOCKS).contains(&blocks) && (boards..=MOST_TOKENS).contains(&tokens)
}

impl Rack {
    /// A fresh record. Whether the buffer has room for it (20) is asked by whoever has the buffer.
    pub fn open(boards: u32, blocks: u32, tokens: u32) -> Result<Rack, Refusal> {
        if !sizes_in_range(boards, blocks, tokens) {
            return Err(Refusal::Size);
        }
        let boards = boards as u8;
        let home = Cell { plain: tokens - 1, owner: Owner::Clean, valid: true, words: [0; WORDS] };
        let mut cells = vec![home];
        cells.resize(usize::from(boards) + 1, Cell::default());
        let block = Block { cells, waiting: BTreeSet::new(), barring: (1..=boards).map(|board| (board, BTreeSet::new())).collect() };
        Ok(Rack { boards, tokens, blocks: vec![block; blocks as usize], mesh: Vec::new() })
    }

    /// "Sound means", sentence by sentence. That the bytes are as the layout has them is what made this value.
    pub fn sound(&self) -> bool {
        // sizes in range
        if !sizes_in_range(u32::from(self.boards), self.blocks.len() as u32, self.tokens) {
            return false;
        }
        // at most 64 messages, each with words all 0 if it has no data
        let mesh_fits = self.mesh.len() <= MESH_LIMIT && self.mesh.iter().all(|m| m.data || m.words == [0; WORDS]);
        // every message has a known sender, a known and different target, a known block and at least one token, and data if it has the
        // owner; by document 02's No. 2 not if that is clean and bound for home
        let messages_known = self.mesh.iter().all(|m| {
            m.sender <= self.boards
                && m.target <= self.boards
                && m.target != m.sender
                && usize::from(m.block) < self.blocks.len()
                && m.carried() >= 1
                && (!m.bare() || m.owner.may_go_bare(m.target))
        });
        mesh_fits
            && messages_known
            && (0..).zip(&self.blocks).all(|(number, block)| {
                // per block the tokens in components and mesh total T, one owner
                let total = self.total(number);
                let tokens_kept = total.plain + total.owners == self.tokens && total.owners == 1;
                // valid only where a token is held
                let valid_held = block.cells.iter().all(|c| !c.valid || c.held() >= 1);
                // the owner's holder is valid
                let owner_valid = block.cells.iter().all(|c| c.valid || !c.owner.here());
                // every set has boards 1 to N only
                let boards_only =
                    std::iter::once(&block.waiting).chain(block.barring.values()).flatten().all(|board| (1..=self.boards).contains(board));
                // a barring set lies within its block's waiting set, and a waiting board's is empty
                let barring_kept = block
                    .barring
                    .iter()
                    .all(|(board, set)| set.is_subset(&block.waiting) && (set.is_empty() || !block.waiting.contains(board)));
                tokens_kept && valid_held && owner_valid && boards_only && barring_kept
            })
    }

    /// A block's tokens in components 0 to N and in the mesh, added up.
    pub fn total(&self, block: u8) -> Total {
        let cells = self.blocks[usize::from(block)].cells.iter().map(|c| (c.plain, c.owner));
        let flying = self.mesh.iter().filter(|m| m.block == block).map(|m| (m.plain, m.owner));
        cells
            .chain(flying)
            .fold(Total::default(), |sum, (plain, owner)| Total { plain: sum.plain + plain, owners: sum.owners + u32::from(owner.here()) })
    }

    /// Whether a block's owner is clean, wherever it is.
    pub fn clean(&self, block: u8) -> bool {
        let cells = self.block(block).cells.iter().map(|c| c.owner);
        let flying = self.mesh.iter().filter(|m| m.block == block).map(|m| m.owner);
        cells.chain(flying).any(|owner| owner == Owner::Clean)
    }

    fn block(&self, block: u8) -> &Block {
        &self.blocks[usize::from(block)]
    }

    fn cell(&self, component: u8, block: u8) -> &Cell {
        &self.block(block).cells[usize::from(component)]
    }

    fn cell_mut(&mut self, component: u8, block: u8) -> &mut Cell {
        &mut self.blocks[usize::from(block)].cells[usize::from(component)]
    }
}

#[derive(Clone, Copy, Debug, Default, PartialEq, Eq)]
pub struct Total {
    pub plain: u32,
    pub owners: u32,
}

// ---- Steps

#[derive(Clone, Copy, Debug, PartialEq, Eq)]
pub enum Step {
    Load { component: u8, block: u8, word: u8 },
    Store { component: u8, block: u8, word: u8, value: u32 },
    Send { component: u8, block: u8, target: u8, plain: u8, owner: bool, data: bool },
    Deliver { position: u8 },
    Raise { component: u8, block: u8 },
    Lower { component: u8, block: u8 },
    Forward { component: u8, block: u8 },
}

/// Load gives a word, deliver the message's target and block; every other accepted step gives only "done".
#[derive(Clone, Copy, Debug, PartialEq, Eq)]
pub enum Answer {
    Done,
    Word(u32),
    Served { component: u8, block: u8 },
}

pub type Reply = Result<Answer, Refusal>;

impl Rack {
    /// A step on a sound rack: the first refusal that it meets, or its change.
    pub fn step(&mut self, step: Step) -> Reply {
        match order(step).iter().find(|&&r| self.meets(r, step)) {
            Some(&refusal) => Err(refusal),
            None => Ok(self.change(step)),
        }
    }

    fn change(&mut self, step: Step) -> Answer {
        match step {
            Step::Load { component, block, word } => return Answer::Word(self.cell(component, block).words[usize::from(word)]),
            Step::Store { component, block, word, value } => {
                let cell = self.cell_mut(component, block);
                cell.words[usize::from(word)] = value;
                // Also where the word had this value before: a store makes the owner dirty.
                cell.owner = Owner::Dirty;
            }
            Step::Send { component, block, target, plain, owner, data } => {
                self.send(component, block, target, u32::from(plain), owner, data)
            }
            Step::Deliver { position } => return self.deliver(position),
            Step::Raise { component, block } => {
                self.blocks[usize::from(block)].waiting.insert(component);
            }
            Step::Lower { component, block } => {
                let block = &mut self.blocks[usize::from(block)];
                block.waiting.remove(&component);
                for set in block.barring.values_mut() {
                    set.remove(&component);
                }
                block.barring.insert(component, block.waiting.clone());
            }
            Step::Forward { component, block } => {
                let active = self.block(block).active().expect("18 is met where there is none");
                let Cell { plain, owner, valid, .. } = *self.cell(component, block);
                self.send(component, block, active, plain, owner.here(), valid);
            }
        }
        Answer::Done
    }

    fn send(&mut self, component: u8, block: u8, target: u8, plain: u32, owner: bool, data: bool) {
        let cell = self.cell_mut(component, block);
        cell.plain -= plain;
        let owner = if owner { std::mem::take(&mut cell.owner) } else { Owner::Away };
        if cell.held() == 0 {
            cell.valid = false;
        }
        let words = if data { cell.words } else { [0; WORDS] };
        self.mesh.push(Message { sender: component, target, block, plain, owner, data, words });
    }

    fn deliver(&mut self, position: u8) -> Answer {
        let message = self.mesh.remove(usize::from(position));
        let cell = self.cell_mut(message.target, message.block);
        cell.plain += message.plain;
        if message.owner.here() {
            cell.owner = if message.target == HOME { Owner::Clean } else { message.owner };
        }
        if message.data {
            cell.words = message.words;
        }
        // Home, receiving a bare owner, becomes valid with the words it already has.
        cell.valid |= message.data || message.bare();
        Answer::Served { component: message.target, block: message.block }
    }
}

// ---- The flat memory

/// B times 8 words, handed accepted loads and stores and nothing else.
#[derive(Clone, Debug, PartialEq, Eq)]
pub struct FlatMemory(Vec<Words>);

impl FlatMemory {
    pub fn new(blocks: u32) -> FlatMemory {
        FlatMemory(vec![[0; WORDS]; blocks as usize])
    }

    pub fn store(&mut self, block: u8, word: u8, value: u32) {
        self.0[usize::from(block)][usize::from(word)] = value;
    }

    pub fn load(&self, block: u8, word: u8) -> u32 {
        self.words(block)[usize::from(word)]
    }

    pub fn words(&self, block: u8) -> &Words {
        &self.0[usize::from(block)]
    }
}

// ---- Step records

/// The step that the bytes are; 1 where they are no step record.
pub fn read(bytes: &[u8]) -> Result<Step, Refusal> {
    step_of(bytes).ok_or(Refusal::Torn)
}

fn step_of(bytes: &[u8]) -> Option<Step> {
    let [kind, high, low, body @ ..] = bytes else {
        return None;
    };
    if body.len() != usize::from(u16::from_be_bytes([*high, *low])) {
        return None;
    }
    // Each field stands once, in rising tag order, with the table's length: the patterns ask for just that.
    Some(match (*kind, fields(body)?.as_slice()) {
        (0x10, &[(1, &[component]), (2, &[block]), (3, &[word])]) => Step::Load { component, block, word },
        (0x11, &[(1, &[component]), (2, &[block]), (3, &[word]), (4, &[a, b, c, d])]) => {
            Step::Store { component, block, word, value: u32::from_be_bytes([a, b, c, d]) }
        }
        (0x12, &[(1, &[component]), (2, &[block]), (5, &[target]), (6, &[plain]), (7, &[owner]), (8, &[data])]) => {
            Step::Send { component, block, target, plain, owner: flag(owner)?, data: flag(data)? }
        }
        (0x13, &[(9, &[position])]) => Step::Deliver { position },
        (0x14, &[(1, &[component]), (2, &[block])]) => Step::Raise { component, block },
        (0x15, &[(1, &[component]), (2, &[block])]) => Step::Lower { component, block },
        (0x16, &[(1, &[component]), (2, &[block])]) => Step::Forward { component, block },
        _ => return None,
    })
}

/// The body is fields, each a tag byte, a two-byte length and a value.
fn fields(mut body: &[u8]) -> Option<Vec<(u8, &[u8])>> {
    let mut fields = Vec::new();
    while let [tag, high, low, rest @ ..] = body {
        let length = usize::from(u16::from_be_bytes([*high, *low]));
        let (value, rest) = rest.split_at_checked(length)?;
        fields.push((*tag, value));
        body = rest;
    }
    body.is_empty().then_some(fields)
}

/// 00 or 01.
pub fn flag(byte: u8) -> Option<bool> {
    match byte {
        0 => Some(false),
        1 => Some(true),
        _ => None,
    }
}

/// The record of a step.
pub fn write(step: Step) -> Vec<u8> {
    let one = |tag: u8, value: u8| (tag, vec![value]);
    let (kind, fields) = match step {
        Step::Load { component, block, word } => (0x10, vec![one(1, component), one(2, block), one(3, word)]),
        Step::Store { component, block, word, value } => {
            (0x11, vec![one(1, component), one(2, block), one(3, word), (4, value.to_be_bytes().to_vec())])
        }
        Step::Send { component, block, target, plain, owner, data } => {
            (0x12, vec![one(1, component), one(2, block), one(5, target), one(6, plain), one(7, owner.into()), one(8, data.into())])
        }
        Step::Deliver { position } => (0x13, vec![one(9, position)]),
        Step::Raise { component, block } => (0x14, vec![one(1, component), one(2, block)]),
        Step::Lower { component, block } => (0x15, vec![one(1, component), one(2, block)]),
        Step::Forward { component, block } => (0x16, vec![one(1, component), one(2, block)]),
    };
    record(kind, &fields)
}

/// A record of any fields, also of ones that make no step.
pub fn record(kind: u8, fields: &[(u8, Vec<u8>)]) -> Vec<u8> {
    let sized = |bytes: &[u8]| (bytes.len() as u16).to_be_bytes();
    let mut body = Vec::new();
    for (tag, value) in fields {
        body.push(*tag);
        body.extend(sized(value));
        body.extend(value);
    }
    let mut bytes = vec![kind];
    bytes.extend(sized(&body));
    bytes.extend(body);
    bytes
}

/// Cuts the first record off a list by its length; an incomplete last one is all that is left.
pub fn cut(list: &[u8]) -> (&[u8], &[u8]) {
    let complete = match list {
        [_, high, low, ..] => list.split_at_checked(3 + usize::from(u16::from_be_bytes([*high, *low]))),
        _ => None,
    };
    complete.unwrap_or((list, &[]))
}

// ---- Refusal table

#[derive(Clone, Copy, Debug, PartialEq, Eq, PartialOrd, Ord)]
#[repr(u8)]
pub enum Refusal {
    Torn = 1,
    Unsound = 2,
    OffRack = 3,
    Home = 4,
    NoToken = 5,
    NoData = 6,
    Short = 7,
    Itself = 8,
    Claimed = 9,
    Empty = 10,
    NotHeld = 11,
    BareOwner = 12,
    MeshFull = 13,
    NoMessage = 14,
    Waiting = 15,
    Barred = 16,
    NotWaiting = 17,
    Unclaimed = 18,
    Size = 19,
    ShortBuffer = 20,
}

impl Refusal {
    pub fn number(self) -> u8 {
        self as u8
    }
}

/// First match, from 3 on: 1 and 2 are asked of the bytes before there is a step and a sound rack. A step meets only the refusals that name it; by
/// document 02's No. 7, 4 does not name a load.
fn order(step: Step) -> &'static [Refusal] {
    use Refusal::*;
    match step {
        Step::Load { .. } => &[OffRack, NoToken, NoData],
        Step::Store { .. } => &[OffRack, Home, Short],
        Step::Send { .. } => &[OffRack, Itself, Claimed, Empty, NotHeld, BareOwner, NoData, MeshFull],
        Step::Raise { .. } => &[OffRack, Home, Waiting, Barred],
        Step::Lower { .. } => &[OffRack, Home, NotWaiting],
        Step::Forward { .. } => &[OffRack, Unclaimed, Itself, NoToken, MeshFull],
        Step::Deliver { .. } => &[NoMessage],
    }
}

impl Rack {
    /// The table's column "when". A row is asked only after those before it in the step's order, so from 4 on the step's numbers are on the rack.
    fn meets(&self, refusal: Refusal, step: Step) -> bool {
        use Refusal::*;
        match (refusal, step) {
            (OffRack, step) => self.off_rack(step),
            (Home, Step::Store { component, .. } | Step::Raise { component, .. } | Step::Lower { component, .. }) => component == HOME,
            (NoToken, Step::Load { component, block, .. } | Step::Forward { component, block }) => self.cell(component, block).held() == 0,
            (NoData, Step::Load { component, block, .. }) => {
                let cell = self.cell(component, block);
                cell.held() >= 1 && !cell.valid
            }
            (NoData, Step::Send { component, block, data, .. }) => data && !self.cell(component, block).valid,
            (Short, Step::Store { component, block, .. }) => self.cell(component, block).held() < self.tokens,
            (Itself, Step::Send { component, target, .. }) => target == component,
            (Itself, Step::Forward { component, block }) => self.block(block).active() == Some(component),
            (Claimed, Step::Send { block, .. }) => self.block(block).active().is_some(),
            (Empty, Step::Send { plain, owner, .. }) => plain == 0 && !owner,
            (NotHeld, Step::Send { component, block, plain, owner, .. }) => {
                let cell = self.cell(component, block);
                u32::from(plain) > cell.plain || (owner && !cell.owner.here())
            }
            (BareOwner, Step::Send { component, block, target, owner, data, .. }) => {
                owner && !data && !self.cell(component, block).owner.may_go_bare(target)
            }
            (MeshFull, Step::Send { .. } | Step::Forward { .. }) => self.mesh.len() == MESH_LIMIT,
            (NoMessage, Step::Deliver { position }) => usize::from(position) >= self.mesh.len(),
            (Waiting, Step::Raise { component, block }) => self.block(block).waiting.contains(&component),
            (Barred, Step::Raise { component, block }) => !self.block(block).barring[&component].is_empty(),
            (NotWaiting, Step::Lower { component, block }) => !self.block(block).waiting.contains(&component),
            (Unclaimed, Step::Forward { block, .. }) => self.block(block).active().is_none(),
            (refusal, step) => unreachable!("{refusal:?} does not name {step:?}"),
        }
    }

    /// Component above N, block not below B, word above 7, target above N.
    fn off_rack(&self, step: Step) -> bool {
        let component_off = |component: u8| component > self.boards;
        let block_off = |block: u8| usize::from(block) >= self.blocks.len();
        let word_off = |word: u8| word > 7;
        match step {
            Step::Load { component, block, word } | Step::Store { component, block, word, .. } => {
                component_off(component) || block_off(block) || word_off(word)
            }
            Step::Send { component, block, target, .. } => component_off(component) || block_off(block) || component_off(target),
            Step::Raise { component, block } | Step::Lower { component, block } | Step::Forward { component, block } => {
                component_off(component) || block_off(block)
            }
            Step::Deliver { .. } => false,
        }
    }
}

// ---- State letter

impl Rack {
    /// With T held M or E, by the owner's mark (document 02's No. 4); O with the owner and fewer; S with valid plain tokens only; otherwise I.
    /// Checks 3 and 4; 2 is asked of the bytes before.
    pub fn letter(&self, component: u32, block: u32) -> Result<char, Refusal> {
        if component > u32::from(self.boards) || block >= self.blocks.len() as u32 {
            return Err(Refusal::OffRack);
        }
        if component == u32::from(HOME) {
            return Err(Refusal::Home);
        }
        let cell = self.cell(component as u8, block as u8);
        let whole = cell.held() == self.tokens;
        Ok(match cell.owner {
            Owner::Dirty if whole => 'M',
            Owner::Clean if whole => 'E',
            Owner::Dirty | Owner::Clean => 'O',
            Owner::Away if cell.valid && cell.plain >= 1 => 'S',
            Owner::Away => 'I',
        })
    }
}
