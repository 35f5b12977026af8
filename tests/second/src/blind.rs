//! Document 01 a third time, with Nos. 1, 2, 4 and 7 of document 02, from these papers alone: neither the engine, nor the other
//! programs, nor the readings in docs/ were at hand. It keeps typed values and knows nothing of the record's bytes, so buffers (20)
//! and damaged records (2) are not its matter.

use std::collections::BTreeSet;

type Words = [u32; 8];

/// A message as it is shown: sender, target, block, plain, owner, data, words. The owner is shown as `shown` says.
type Shown = (u32, u32, u32, u32, Option<bool>, bool, Words);

/// No. 2: the mark of an owner token. Owner is `Option<Mark>` throughout, so there is no mark where there is no owner.
#[derive(Clone, Copy, Debug, PartialEq)]
enum Mark {
    /// Home has the words of the block already.
    Clean,
    /// There was a store since the owner was last at home.
    Dirty,
}

/// How an owner is shown: None where it is not there, false for a clean one, true for a dirty one.
fn shown(owner: Option<Mark>) -> Option<bool> {
    owner.map(|mark| mark == Mark::Dirty)
}

/// "The rack": what one component has of one block.
#[derive(Clone, Debug, Default, PartialEq)]
struct Cell {
    plain: u32,
    owner: Option<Mark>,
    valid: bool,
    words: Words,
}

impl Cell {
    /// "Steps": held is plain plus owner, so the owner is one of the T and not beside them.
    fn held(&self) -> u32 {
        self.plain + u32::from(self.owner.is_some())
    }
}

/// "The rack": a message of the mesh.
#[derive(Clone, Debug, PartialEq)]
struct Message {
    sender: usize,
    target: usize,
    block: usize,
    plain: u32,
    owner: Option<Mark>,
    data: bool,
    words: Words,
}

/// "The rack": the waiting set of a block and the barring set of each board (index 0 stays empty, home never waits).
#[derive(Clone, Debug, PartialEq)]
struct Claims {
    waiting: BTreeSet<u32>,
    barring: Vec<BTreeSet<u32>>,
}

impl Claims {
    /// "Steps": the active board is the lowest-numbered waiting board.
    fn active(&self) -> Option<usize> {
        self.waiting.first().map(|&b| b as usize)
    }
}

/// "Step records": the fields of a record by tag, 0 where its kind has no such field.
type Fields = [u32; 10];

/// Takes a two-byte length, high byte first, and that many bytes off the front.
fn counted(bytes: &[u8]) -> Option<(&[u8], &[u8])> {
    let (high, rest) = bytes.split_first()?;
    let (low, rest) = rest.split_first()?;
    let count = usize::from(*high) * 256 + usize::from(*low);
    (rest.len() >= count).then(|| rest.split_at(count))
}

/// "Step records": the kind, 10 to 16, and the fields; None is torn.
fn parse(bytes: &[u8]) -> Option<(u8, Fields)> {
    let (&kind, rest) = bytes.split_first()?;
    let (mut body, after) = counted(rest)?;
    let tags: &[u8] = match kind {
        0x10 => &[1, 2, 3],
        0x11 => &[1, 2, 3, 4],
        0x12 => &[1, 2, 5, 6, 7, 8],
        0x13 => &[9],
        0x14..=0x16 => &[1, 2],
        _ => return None,
    };
    let mut fields = [0; 10];
    for &tag in tags {
        let (&found, rest) = body.split_first()?;
        let (value, rest) = counted(rest)?;
        let width = if tag == 4 { 4 } else { 1 };
        if found != tag || value.len() != width {
            return None;
        }
        let number = value.iter().fold(0u32, |n, &byte| (n << 8) | u32::from(byte));
        // Only owner and data have a range in the table of tags; every other value is left to the rack.
        if (tag == 7 || tag == 8) && number > 1 {
            return None;
        }
        fields[usize::from(tag)] = number;
        body = rest;
    }
    // The fields fill the body and the record fills the bytes given.
    (body.is_empty() && after.is_empty()).then_some((kind, fields))
}

/// "Refusal table": a check is a condition that refuses and the number it gives.
fn refuse(when: bool, number: u32) -> Result<(), u32> {
    (!when).then_some(()).ok_or(number)
}

/// "Steps" with No. 1: what an accepted step gives. The cases are kept apart because a word may have any value.
#[derive(Clone, Copy, Debug, Eq, PartialEq)]
pub enum Answer {
    /// Every accepted step but a load and a deliver; an accepted opening reads as this too.
    Done,
    /// The word of a load.
    Word(u32),
    /// No. 1: whom a deliver served, so that no policy has to look the message up first.
    Served { component: u32, block: u32 },
}

/// "Program rackrun" with No. 1: one reply as a line has it after the index and the space. An accepted opening is given as done.
pub fn text(reply: Result<Answer, u32>) -> String {
    match reply {
        Ok(Answer::Done) => "ok".to_string(),
        Ok(Answer::Word(word)) => format!("v{word:08x}"),
        Ok(Answer::Served { component, block }) => format!("d{component}.{block}"),
        Err(number) => format!("r{number}"),
    }
}

/// A rack of N boards, B blocks and T tokens a block.
pub struct Rack {
    boards: u32,
    blocks: u32,
    tokens: u32,
    /// By block, then by component.
    cells: Vec<Vec<Cell>>,
    mesh: Vec<Message>,
    claims: Vec<Claims>,
}

impl Rack {
    /// Opens a rack, or gives the number of the refusal.
    pub fn open(boards: u32, blocks: u32, tokens: u32) -> Result<Rack, u32> {
        let fits = (1..=15).contains(&boards) && (1..=32).contains(&blocks) && (boards..=64).contains(&tokens);
        refuse(!fits, 19)?;
        let count = boards as usize + 1;
        let mut column = vec![Cell::default(); count];
        // "A fresh record": home holds all T, and one of the T is the owner. No. 2: fresh owners are clean.
        (column[0].plain, column[0].owner, column[0].valid) = (tokens - 1, Some(Mark::Clean), true);
        let (waiting, barring) = (BTreeSet::new(), vec![BTreeSet::new(); count]);
        Ok(Rack {
            boards,
            blocks,
            tokens,
            cells: vec![column; blocks as usize],
            mesh: Vec::new(),
            claims: vec![Claims { waiting, barring }; blocks as usize],
        })
    }

    /// Gives the bytes of one step record to the rack: the word of an accepted load, the component and block that an accepted
    /// deliver served, done for another accepted step, or the refusal's number. A refused step changes nothing.
    pub fn step(&mut self, bytes: &[u8]) -> Result<Answer, u32> {
        let (kind, fields) = parse(bytes).ok_or(1u32)?;
        let [_, component, block, word, value, target, plain, owner, data, position] = fields;
        // The order of "First match": 3 and 4 come before what is special to a step. A field the kind lacks is 0 and passes 3.
        refuse(word > 7 || target > self.boards, 3)?;
        let (c, b) = self.place(component, block)?;
        // No. 7: 4 no longer names a load, so a load at home meets the ordinary load rule, 5 and 6 included.
        refuse(c == 0 && matches!(kind, 0x11 | 0x14 | 0x15), 4)?;
        let (cell, claims) = (&mut self.cells[b][c], &mut self.claims[b]);
        let full = self.mesh.len() >= 64;
        // In each arm all checks stand before the first change, so a refusal changes nothing.
        match kind {
            0x10 => {
                refuse(cell.held() == 0, 5)?;
                refuse(!cell.valid, 6)?;
                return Ok(Answer::Word(cell.words[word as usize]));
            }
            0x11 => {
                refuse(cell.held() < self.tokens, 7)?;
                cell.words[word as usize] = value;
                // No. 2: a store makes the owner dirty, whatever the value. All T are held here, so the owner is among them.
                cell.owner = cell.owner.map(|_| Mark::Dirty);
            }
            0x12 => {
                let (owner, data) = (owner == 1, data == 1);
                refuse(target == component, 8)?;
                // "Plausible engines that are false": the active board's own sends are refused too.
                refuse(claims.active().is_some(), 9)?;
                refuse(plain == 0 && !owner, 10)?;
                // W6: the plain count alone limits the plain sent; the owner does not stand in for a plain token.
                refuse(plain > cell.plain || owner && cell.owner.is_none(), 11)?;
                // No. 2: without data the owner may go only where it is clean and the target is home, with any plain beside it.
                let fit_bare = cell.owner == Some(Mark::Clean) && target == 0;
                refuse(owner && !data && !fit_bare, 12)?;
                refuse(data && !cell.valid, 6)?;
                refuse(full, 13)?;
                self.launch((c, b), target as usize, plain, owner, data);
            }
            0x13 => {
                refuse(position as usize >= self.mesh.len(), 14)?;
                let message = self.mesh.remove(position as usize);
                let (cell, home) = (&mut self.cells[message.block][message.target], message.target == 0);
                cell.plain += message.plain;
                if let Some(mark) = message.owner {
                    // No. 2: the owner becomes clean on delivery to home; a board takes it with the mark it came with.
                    cell.owner = Some(if home { Mark::Clean } else { mark });
                    // No. 2: home that receives the owner is valid, also without data: then with the words it already has.
                    cell.valid |= home;
                }
                // Without data the words do not change, nor, but for the owner at home, the valid mark.
                if message.data {
                    (cell.words, cell.valid) = (message.words, true);
                }
                // A deliver record names only a position, so component and block are the message's.
                return Ok(Answer::Served { component: message.target as u32, block: message.block as u32 });
            }
            0x14 => {
                refuse(claims.waiting.contains(&component), 15)?;
                refuse(!claims.barring[c].is_empty(), 16)?;
                claims.waiting.insert(component);
            }
            0x15 => {
                refuse(!claims.waiting.contains(&component), 17)?;
                claims.waiting.remove(&component);
                for set in &mut claims.barring {
                    set.remove(&component);
                }
                // All that still wait bar it, higher boards as well as lower ones.
                claims.barring[c] = claims.waiting.clone();
            }
            // 16, forward: parse lets no other kind through.
            _ => {
                let target = claims.active().ok_or(18u32)?;
                refuse(target == c, 8)?;
                refuse(cell.held() == 0, 5)?;
                refuse(full, 13)?;
                // The owner's holder is valid, so no owner is forwarded bare.
                let (plain, owner, data) = (cell.plain, cell.owner.is_some(), cell.valid);
                self.launch((c, b), target, plain, owner, data);
            }
        }
        Ok(Answer::Done)
    }

    /// Refusal 3 of component and block, which the steps and the letter have in common.
    fn place(&self, component: u32, block: u32) -> Result<(usize, usize), u32> {
        refuse(component > self.boards || block >= self.blocks, 3)?;
        Ok((component as usize, block as usize))
    }

    /// The change of a send, shared with forward because forward has only its own checks.
    fn launch(&mut self, (sender, block): (usize, usize), target: usize, plain: u32, owner: bool, data: bool) {
        let cell = &mut self.cells[block][sender];
        cell.plain -= plain;
        // No. 2: the mark is the owner's and goes with it; a step names only owner yes or no.
        let owner = if owner { cell.owner.take() } else { None };
        // A mark that outlived the last token would let a stale word be read later; the words themselves stay.
        cell.valid &= cell.held() > 0;
        let words = if data { cell.words } else { [0; 8] };
        self.mesh.push(Message { sender, target, block, plain, owner, data, words });
    }

    /// "State letter" with No. 4: the letter of a component and a block as an ASCII byte, or the refusal's number.
    pub fn letter(&self, component: u32, block: u32) -> Result<u8, u32> {
        let (c, b) = self.place(component, block)?;
        refuse(c == 0, 4)?;
        let cell = &self.cells[b][c];
        // One of the T is the owner, so a board that holds them all has a mark to tell E from M by. No. 4: the mark alone tells
        // them apart, not the words; with fewer than T it does not matter.
        let all = cell.held() == self.tokens;
        Ok(match cell.owner {
            Some(Mark::Clean) if all => b'E',
            Some(Mark::Dirty) if all => b'M',
            Some(_) => b'O',
            None if cell.valid && cell.plain > 0 => b'S',
            None => b'I',
        })
    }

    /// What one component has of one block: plain tokens, owner (None not there, false clean, true dirty), valid, the eight words as
    /// held (also where valid is not set).
    pub fn cell(&self, component: usize, block: usize) -> (u32, Option<bool>, bool, [u32; 8]) {
        let cell = &self.cells[block][component];
        (cell.plain, shown(cell.owner), cell.valid, cell.words)
    }

    /// The messages in flight, oldest first.
    pub fn mesh(&self) -> Vec<Shown> {
        let view = |m: &Message| (m.sender as u32, m.target as u32, m.block as u32, m.plain, shown(m.owner), m.data, m.words);
        self.mesh.iter().map(view).collect()
    }

    /// The boards that wait on a block, in rising order, and for each board 1..=N the boards that bar it, in rising order.
    pub fn claims(&self, block: usize) -> (Vec<u32>, Vec<Vec<u32>>) {
        let claims = &self.claims[block];
        let list = |set: &BTreeSet<u32>| set.iter().copied().collect::<Vec<u32>>();
        (list(&claims.waiting), claims.barring[1..].iter().map(list).collect())
    }
}
