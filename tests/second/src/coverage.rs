//! What a comparison reached: for each call and kind of step, how often it was accepted and met each refusal; which letters were shown; which
//! messages were delivered from a filled mesh, and whom they served; which steps at home the lists had; what was met of the owner's mark and of
//! other formats.

use crate::calls::sound_rack;
use crate::layout::{FORMAT, FORMAT_BYTES, HEADER_SIZE};
use crate::letters::{self, LETTERS};
use crate::model::{Answer, Message, Rack, Refusal, Reply, Step, HOME, MESH_LIMIT, WORDS};
use crate::owners::{self, Look};
use std::collections::BTreeMap;

pub const KINDS: [&str; 12] =
    ["load", "store", "send", "deliver", "raise", "lower", "forward", "other bytes", "opening", "letter", "reading", "writing"];
pub const OTHER: usize = 7;
pub const OPENING: usize = 8;
pub const LETTER: usize = 9;
pub const READING: usize = 10;
pub const WRITING: usize = 11;

/// The refusals that each kind can meet. Reading meets 20 and writing 1 at the C interface alone.
const REFUSALS: [&[usize]; 12] = [
    &[1, 2, 3, 5, 6],
    &[1, 2, 3, 4, 7],
    &[1, 2, 3, 8, 9, 10, 11, 12, 6, 13],
    &[1, 2, 14],
    &[1, 2, 3, 4, 15, 16],
    &[1, 2, 3, 4, 17],
    &[1, 2, 3, 18, 8, 5, 13],
    &[1],
    &[19, 20],
    &[2, 3, 4],
    &[1, 20],
    &[1, 20],
];

/// Where a delivered message stood. Behind the first and those of the middle others stand, which move up; behind the last and the only one none.
const POSITIONS: [&str; 4] = ["only", "first", "middle", "last"];
const MIDDLE: usize = 2;

/// What it brought: with the words that the target has already, a copy that was left out would not be seen.
const BROUGHT: [&str; 3] = ["no data", "the target's words", "other words"];

/// Whom it served, where an engine that gives something else would be seen: the sender, the target or block of another message (the next one moves
/// up to its position), the two numbers exchanged, or only some of their digits or bits.
const SERVED: [&str; 12] = [
    "another than the sender",
    "another target than the first's",
    "another block than the first's",
    "another target than the next one's",
    "another block than the next one's",
    "another target than the last's",
    "another block than the last's",
    "component and block of different numbers",
    "home",
    "both numbers of two digits",
    "component 15",
    "block 31",
];

/// Which of these a message's target and block are.
fn served(mesh: &[Message], at: usize) -> [bool; SERVED.len()] {
    let &Message { sender, target, block, .. } = &mesh[at];
    let of = |other: Option<&Message>| other.map_or((target, block), |m| (m.target, m.block));
    let (first, next, last) = (of(mesh.first()), of(mesh.get(at + 1)), of(mesh.last()));
    [
        target != sender,
        target != first.0,
        block != first.1,
        target != next.0,
        block != next.1,
        target != last.0,
        block != last.1,
        target != block,
        target == HOME,
        target >= 10 && block >= 10,
        target == 15,
        block == 31,
    ]
}

/// Steps at component 0 in lists, where an engine would be seen that refuses every load there, reads another component's words, leaves out a line of
/// the table, or takes a step that is still refused. The first two are the answered loads.
const AT_HOME: [&str; 14] = [
    "load of a word that is not 0",
    "load of 0",
    "load of another word than board 1 has",
    "load of another word than the last board has",
    "load with all T held",
    "load without the owner",
    "load of a block off the rack",
    "load of a word off the rack",
    "load with nothing held",
    "load with tokens and no data",
    "store with all T held",
    "store with valid data and fewer held",
    "raise",
    "lower",
];
const ANSWERED: usize = 2;

/// Which of these a step is, by its reply. None of them changes the rack: it is the one before and after.
fn at_home(rack: &Rack, step: Step, reply: Reply) -> [bool; AT_HOME.len()] {
    let (block, word) = match step {
        Step::Load { component: HOME, block, word } | Step::Store { component: HOME, block, word, .. } => (block, word),
        Step::Raise { component: HOME, block } | Step::Lower { component: HOME, block } => (block, 0),
        _ => return [false; AT_HOME.len()],
    };
    let (load, store) = (matches!(step, Step::Load { .. }), matches!(step, Step::Store { .. }));
    let (raise, lower) = (matches!(step, Step::Raise { .. }), matches!(step, Step::Lower { .. }));
    let refused = |refusal| reply == Err(refusal);
    let given = if let Ok(Answer::Word(given)) = reply { Some(given) } else { None };
    let cells = rack.blocks.get(usize::from(block)).map(|block| &block.cells);
    let home = cells.map(|cells| cells[usize::from(HOME)].clone()).unwrap_or_default();
    let all = home.held() == rack.tokens;
    let differs = |board: u8| cells.zip(given).is_some_and(|(cells, given)| cells[usize::from(board)].words[usize::from(word)] != given);
    [
        given.is_some_and(|given| given != 0),
        given == Some(0),
        differs(1),
        differs(rack.boards),
        given.is_some() && all,
        given.is_some() && !home.owner.here(),
        load && refused(Refusal::OffRack) && cells.is_none() && usize::from(word) < WORDS,
        load && refused(Refusal::OffRack) && cells.is_some(),
        load && refused(Refusal::NoToken),
        load && refused(Refusal::NoData),
        store && refused(Refusal::Home) && all,
        store && refused(Refusal::Home) && home.valid && !all,
        raise && refused(Refusal::Home),
        lower && refused(Refusal::Home),
    ]
}

/// Damaged records at which an engine would be seen that takes another format: that leaves out a byte of it, takes every number up to its own or
/// from it on, takes a record without one, or has its bytes in another order. All are refused, and would be sound with the format.
const FORMATS: [&str; 7] = [
    "another first byte",
    "another second byte",
    "another third byte",
    "a lower number",
    "a higher number",
    "only zeros",
    "its bytes in another order",
];

/// Which of these a record has.
fn formats(record: &[u8]) -> [bool; FORMATS.len()] {
    let format = match record.get(FORMAT..HEADER_SIZE) {
        Some(format) if format != FORMAT_BYTES => format,
        _ => return [false; FORMATS.len()],
    };
    let mut repaired = record.to_vec();
    repaired[FORMAT..HEADER_SIZE].copy_from_slice(&FORMAT_BYTES);
    if sound_rack(&repaired).is_err() {
        return [false; FORMATS.len()];
    }
    let differs: Vec<usize> = (0..FORMAT_BYTES.len()).filter(|&at| format[at] != FORMAT_BYTES[at]).collect();
    [
        differs == [0],
        differs == [1],
        differs == [2],
        differs == [3] && format[3] < FORMAT_BYTES[3],
        differs == [3] && format[3] > FORMAT_BYTES[3],
        format.iter().all(|&byte| byte == 0),
        format.iter().eq(FORMAT_BYTES.iter().rev()),
    ]
}

/// Deliveries from a filled mesh.
#[derive(Default)]
struct Delivered {
    counts: [[u64; BROUGHT.len()]; POSITIONS.len()],
    served: [u64; SERVED.len()],
    /// The messages in flight at each, added up.
    in_flight: u64,
    /// Those of the middle, with words that neither neighbour has: words from another slot would be seen.
    apart: u64,
    /// The most in flight at a delivery of the middle with other words.
    most: usize,
}

#[derive(Default)]
pub struct Coverage {
    counts: [[u64; 21]; KINDS.len()],
    pub steps: u64,
    pub lists: u64,
    pub most_in_flight: usize,
    pub flat_loads: u64,
    /// Those of them that are at home.
    pub flat_home_loads: u64,
    damaged: u64,
    damaged_sound: u64,
    pub runs: u64,
    pub run_steps: u64,
    /// Of what was worked by hand: situations, their lines, letters of boards, and letters refused at home and off the rack.
    pub situations: u64,
    pub hand_lines: u64,
    pub hand_letters: u64,
    pub hand_refused: u64,
    /// Letters shown in all, and those of lists by the rack's N, B and T.
    shown: [u64; LETTERS.len()],
    by_rack: BTreeMap<(u32, u32, u32), [u64; LETTERS.len()]>,
    letters: u64,
    letter_sorts: [u64; letters::SORTS.len()],
    changed: [u64; letters::CHANGED.len()],
    delivered: Delivered,
    at_home: [u64; AT_HOME.len()],
    owners: [u64; owners::MET.len()],
    marks: [u64; owners::DAMAGED.len()],
    formats: [u64; FORMATS.len()],
}

/// Adds each to the count at its place.
fn add_each<'a>(counts: impl IntoIterator<Item = &'a mut u64>, more: impl IntoIterator<Item = impl Into<u64>>) {
    for (count, more) in counts.into_iter().zip(more) {
        *count += more.into();
    }
}

/// Counts with their names.
fn named(names: &[&str], counts: &[u64]) -> String {
    names.iter().zip(counts).map(|(name, n)| format!("{name} {n}")).collect::<Vec<String>>().join(", ")
}

/// The names whose count is 0.
fn missing<'a>(names: &'a [&str], counts: &'a [u64]) -> impl Iterator<Item = &'a str> {
    names.iter().zip(counts).filter(|(_, &count)| count == 0).map(|(name, _)| *name)
}

/// The kind of a step's bytes, by their first byte.
pub fn kind_of(bytes: &[u8]) -> usize {
    match bytes.first() {
        Some(kind @ 0x10..=0x16) => usize::from(kind - 0x10),
        _ => OTHER,
    }
}

impl Coverage {
    pub fn count(&mut self, kind: usize, result: u64) {
        let place = if result >> 56 == 1 { result as u32 as usize } else { 0 };
        self.counts[kind][place] += 1;
        if let (LETTER, Some(letter)) = (kind, letters::place(result)) {
            self.shown[letter] += 1;
        }
    }

    /// A rack of the lists: without letters it is a gap.
    pub fn expect(&mut self, sizes: (u32, u32, u32)) {
        self.by_rack.entry(sizes).or_default();
    }

    /// Counts a state letter of a list, as the rack gives it.
    pub fn letter(&mut self, rack: &Rack, component: u32, block: u32, result: u64) {
        self.count(LETTER, result);
        self.letters += 1;
        if let Some(letter) = letters::place(result) {
            let sizes = (rack.boards.into(), rack.blocks.len() as u32, rack.tokens);
            self.by_rack.entry(sizes).or_default()[letter] += 1;
            add_each(&mut self.letter_sorts, letters::sorts(rack, component, block, LETTERS[letter]));
        }
    }

    /// Counts a delivery before it is made.
    pub fn delivery(&mut self, rack: &Rack, position: u8) {
        let (at, count) = (usize::from(position), rack.mesh.len());
        let Some(message) = rack.mesh.get(at) else { return };
        let class = match at {
            0 if count == 1 => 0,
            0 => 1,
            _ if at + 1 < count => MIDDLE,
            _ => 3,
        };
        let cell = &rack.blocks[usize::from(message.block)].cells[usize::from(message.target)];
        let brought = if message.data { 1 + usize::from(message.words != cell.words) } else { 0 };
        let delivered = &mut self.delivered;
        delivered.counts[class][brought] += 1;
        delivered.in_flight += count as u64;
        add_each(&mut delivered.served, served(&rack.mesh, at));
        if class == MIDDLE && brought == 2 {
            delivered.apart += u64::from([at - 1, at + 1].iter().all(|&beside| rack.mesh[beside].words != message.words));
            delivered.most = delivered.most.max(count);
        }
    }

    /// Counts a step of a list and its reply, with the rack after it.
    pub fn at_home(&mut self, rack: &Rack, step: Step, reply: Reply) {
        add_each(&mut self.at_home, at_home(rack, step, reply));
    }

    /// Counts what a step of a list met of the owner's mark.
    pub fn owners(&mut self, met: [bool; owners::MET.len()]) {
        add_each(&mut self.owners, met);
    }

    /// Counts a step of a list by which a letter changes.
    pub fn changed(&mut self, look: &Look, step: Step, reply: Reply) {
        add_each(&mut self.changed, letters::changed(look, step, reply));
    }

    /// Counts a damaged record that had this rack before; sound or not.
    pub fn damaged(&mut self, before: &Rack, record: &[u8]) {
        self.damaged += 1;
        self.damaged_sound += u64::from(sound_rack(record).is_ok());
        add_each(&mut self.marks, owners::damaged(before, record));
        add_each(&mut self.formats, formats(record));
    }

    /// Adds what another part of the comparison reached.
    pub fn add(&mut self, other: &Coverage) {
        add_each(self.counts.iter_mut().flatten(), other.counts.into_iter().flatten());
        add_each(&mut self.at_home, other.at_home);
        add_each(&mut self.owners, other.owners);
        add_each(&mut self.marks, other.marks);
        add_each(&mut self.formats, other.formats);
        self.steps += other.steps;
        self.lists += other.lists;
        self.most_in_flight = self.most_in_flight.max(other.most_in_flight);
        self.flat_loads += other.flat_loads;
        self.flat_home_loads += other.flat_home_loads;
        self.damaged += other.damaged;
        self.damaged_sound += other.damaged_sound;
        self.runs += other.runs;
        self.run_steps += other.run_steps;
        self.situations += other.situations;
        self.hand_lines += other.hand_lines;
        self.hand_letters += other.hand_letters;
        self.hand_refused += other.hand_refused;
        add_each(&mut self.shown, other.shown);
        for (&sizes, &shown) in &other.by_rack {
            add_each(self.by_rack.entry(sizes).or_default(), shown);
        }
        self.letters += other.letters;
        add_each(&mut self.letter_sorts, other.letter_sorts);
        add_each(&mut self.changed, other.changed);
        add_each(self.delivered.counts.iter_mut().flatten(), other.delivered.counts.into_iter().flatten());
        add_each(&mut self.delivered.served, other.delivered.served);
        self.delivered.in_flight += other.delivered.in_flight;
        self.delivered.apart += other.delivered.apart;
        self.delivered.most = self.delivered.most.max(other.delivered.most);
    }

    pub fn print(&self) {
        println!("{} steps in {} lists; most messages in flight {}", self.steps, self.lists, self.most_in_flight);
        println!(
            "{} loads answered as the flat memory does, {} of them at home; {} state letters",
            self.flat_loads, self.flat_home_loads, self.letters
        );
        println!("{} damaged records, {} of them sound", self.damaged, self.damaged_sound);
        println!("marks of damaged records: {}", named(&owners::DAMAGED, &self.marks));
        println!("formats of damaged records: {}", named(&FORMATS, &self.formats));
        println!("{} runs of {} steps", self.runs, self.run_steps);
        println!(
            "{} lines worked by hand in {} situations; {} letters of boards, {} refused at home and off the rack",
            self.hand_lines, self.situations, self.hand_letters, self.hand_refused
        );
        self.delivered.print();
        println!("steps at home: {}", named(&AT_HOME, &self.at_home));
        println!("owners: {}", named(&owners::MET, &self.owners));
        println!("letters shown: {}", named(&LETTERS, &self.shown));
        for ((boards, blocks, tokens), shown) in &self.by_rack {
            println!("{:>12}: {}", format!("{boards}, {blocks}, {tokens}"), named(&LETTERS, shown));
        }
        println!("letters of lists: {}", named(&letters::SORTS, &self.letter_sorts));
        println!("letters that a step changed: {}", named(&letters::CHANGED, &self.changed));
        for (kind, counts) in KINDS.iter().zip(&self.counts) {
            let refused: Vec<String> =
                counts.iter().enumerate().skip(1).filter(|(_, &n)| n > 0).map(|(number, n)| format!("r{number} {n}")).collect();
            println!("{kind:>12}: accepted {}, {}", counts[0], refused.join(", "));
        }
    }

    /// What a kind can meet and never met, and what it met and cannot; what was never delivered; what was never tried at home; what was
    /// never met of the owner's mark and of other formats; which letters were never shown, in all and by a rack of the lists that can show them.
    pub fn gaps(&self) -> Vec<String> {
        let mut gaps = self.delivered.gaps();
        gaps.extend(missing(&AT_HOME, &self.at_home).map(|step| format!("no {step} at home")));
        gaps.extend(missing(&owners::MET, &self.owners).map(|sort| format!("no {sort}")));
        gaps.extend(missing(&owners::DAMAGED, &self.marks).map(|sort| format!("no damaged record: {sort}")));
        gaps.extend(missing(&FORMATS, &self.formats).map(|sort| format!("no damaged record with another format: {sort}")));
        gaps.extend(missing(&LETTERS, &self.shown).map(|letter| format!("no letter {letter}")));
        for (sizes, shown) in &self.by_rack {
            for ((letter, &count), possible) in LETTERS.iter().zip(shown).zip(letters::possible(sizes.2)) {
                if possible && count == 0 {
                    gaps.push(format!("{sizes:?} never showed {letter}"));
                }
                if !possible && count > 0 {
                    gaps.push(format!("{sizes:?} showed {letter}, which it cannot"));
                }
            }
        }
        if self.hand_lines == 0 || self.hand_letters == 0 {
            gaps.push("no lines or no letters worked by hand".into());
        }
        gaps.extend(missing(&letters::SORTS, &self.letter_sorts).map(|sort| format!("no {sort}")));
        gaps.extend(missing(&letters::CHANGED, &self.changed).map(|sort| format!("no {sort}")));
        if self.shown.iter().sum::<u64>() != self.counts[LETTER][0] {
            gaps.push("a letter is none of the five".into());
        }
        // The replies are the model's in both counts: this guards the comparison itself.
        let answered: u64 = self.at_home[..ANSWERED].iter().sum();
        if self.flat_home_loads != answered {
            gaps.push(format!("the flat memory was handed {} of {answered} loads that were answered at home", self.flat_home_loads));
        }
        for ((kind, counts), refusals) in KINDS.iter().zip(&self.counts).zip(REFUSALS) {
            if counts[0] == 0 && *kind != KINDS[OTHER] {
                gaps.push(format!("{kind} was never accepted"));
            }
            for (number, &count) in counts.iter().enumerate().skip(1) {
                if refusals.contains(&number) && count == 0 {
                    gaps.push(format!("{kind} never met {number}"));
                }
                if !refusals.contains(&number) && count > 0 {
                    gaps.push(format!("{kind} met {number}, which does not name it"));
                }
            }
        }
        gaps
    }
}

impl Delivered {
    fn count(&self) -> u64 {
        self.counts.iter().flatten().sum()
    }

    fn print(&self) {
        println!("{} deliveries from a filled mesh, {} in flight on average", self.count(), self.in_flight / self.count().max(1));
        for (class, counts) in POSITIONS.iter().zip(&self.counts) {
            println!("{class:>12}: {}", named(&BROUGHT, counts));
        }
        println!("{:>12}  {} of the middle with words that neither neighbour has", "", self.apart);
        println!("{:>12}: {}", "served", named(&SERVED, &self.served));
    }

    /// A position and what was brought from it that never came together; too few from the middle, or never from the middle of a full mesh; whom
    /// none served.
    fn gaps(&self) -> Vec<String> {
        let mut gaps = Vec::new();
        for (class, counts) in POSITIONS.iter().zip(&self.counts) {
            gaps.extend(missing(&BROUGHT, counts).map(|brought| format!("no delivery of {brought}, {class}")));
        }
        if 2 * self.counts[MIDDLE].iter().sum::<u64>() <= self.count() {
            gaps.push("most deliveries are not from the middle".into());
        }
        if self.apart == 0 {
            gaps.push("no delivery of the middle with words that neither neighbour has".into());
        }
        if self.most != MESH_LIMIT {
            gaps.push(format!("no delivery of the middle with {MESH_LIMIT} in flight"));
        }
        gaps.extend(missing(&SERVED, &self.served).map(|whom| format!("no delivery served {whom}")));
        gaps
    }
}
