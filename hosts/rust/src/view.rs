use crate::record::letter_in;
use crate::{Letter, Refusal};
use std::fmt;

/// The figures of a sound record, read by its written layout (`docs/RECORD.md`).
///
/// ```
/// use hyaloneth::{Owner, Record, Refusal, Step, View};
///
/// let mut buffer = [0; Record::LONGEST];
/// assert_eq!(View::of(&buffer).err(), Some(Refusal::Unsound));
///
/// let mut rack = Record::open(&mut buffer, 2, 1, 3)?;
/// rack.step(&Step::Raise { component: 2, block: 0 })?;
/// rack.step(&Step::Forward { component: 0, block: 0 })?;
/// let view = rack.view()?;
/// assert_eq!(view.active(0), Some(2));
/// let message = view.messages().next().unwrap();
/// assert_eq!((message.target, message.plain, message.owner), (2, 2, Owner::Clean));
/// assert_eq!(view.cell(0, 0).map(|home| home.held()), Some(0));
/// assert_eq!(view.cell(3, 0), None);
/// # Ok::<(), Refusal>(())
/// ```
#[derive(Clone, Copy, Debug)]
pub struct View<'a> {
    record: &'a [u8],
}

/// The owner token of a block, as a component or a message has it: away, or there with its mark.
///
/// Fresh owners are clean. A store makes the owner dirty, also a store of the value that was there
/// already. A delivery to home makes it clean. Otherwise the mark travels as it is. In a record that
/// was opened and then changed by steps alone, home has the words of every block whose owner is
/// clean. So a clean owner needs no data on its way home:
///
/// ```
/// use hyaloneth::{Owner, Record, Refusal, Reply, Step};
///
/// let mut buffer = [0; Record::LONGEST];
/// let mut rack = Record::open(&mut buffer, 2, 1, 3)?;
/// let send = |component, target, data| {
///     Step::Send { component, block: 0, target, plain: 2, owner: true, data }
/// };
/// let oldest = Step::Deliver { position: 0 };
///
/// // Board 1 gets the whole block from home and stores: its owner is dirty and needs the data.
/// rack.step(&send(0, 1, true))?;
/// rack.step(&oldest)?;
/// rack.step(&Step::Store { component: 1, block: 0, word: 0, value: 7 })?;
/// assert_eq!(rack.view()?.cell(1, 0).unwrap().owner, Owner::Dirty);
/// assert_eq!(rack.step(&send(1, 0, false)), Err(Refusal::BareOwner));
/// rack.step(&send(1, 0, true))?;
/// rack.step(&oldest)?;
///
/// // Board 2 gets it with the stored word and only reads: its owner is clean and goes home bare.
/// rack.step(&send(0, 2, true))?;
/// rack.step(&oldest)?;
/// assert_eq!(rack.step(&Step::Load { component: 2, block: 0, word: 0 }), Ok(Reply::Word(7)));
/// assert_eq!(rack.view()?.cell(2, 0).unwrap().owner, Owner::Clean);
/// assert_eq!(rack.step(&send(2, 0, false)), Ok(Reply::Done));
/// rack.step(&oldest)?;
///
/// // Home is valid with the words that it had.
/// assert_eq!(rack.step(&Step::Load { component: 0, block: 0, word: 0 }), Ok(Reply::Word(7)));
/// # Ok::<(), Refusal>(())
/// ```
#[derive(Clone, Copy, Debug, PartialEq, Eq, Hash)]
pub enum Owner {
    /// The owner is elsewhere.
    Away,
    /// The owner is here and clean. In a record that was opened and then changed by steps alone, no
    /// store was made since it was last at home. A board that holds all tokens shows
    /// [`Letter::Exclusive`].
    Clean,
    /// The owner is here and dirty. In such a record a store was made since it was last at home. A
    /// board that holds all tokens shows [`Letter::Modified`].
    Dirty,
}

impl Owner {
    /// Whether the owner is here, clean or dirty.
    ///
    /// ```
    /// use hyaloneth::Owner;
    ///
    /// assert!(Owner::Clean.is_present() && Owner::Dirty.is_present());
    /// assert!(!Owner::Away.is_present());
    /// ```
    pub fn is_present(self) -> bool {
        self != Owner::Away
    }

    /// Whether the owner is here and clean: on its way home it needs no data.
    ///
    /// ```
    /// use hyaloneth::Owner;
    ///
    /// assert!(Owner::Clean.is_clean());
    /// assert!(!Owner::Dirty.is_clean() && !Owner::Away.is_clean());
    /// ```
    pub fn is_clean(self) -> bool {
        self == Owner::Clean
    }

    /// Whether the owner is here and dirty.
    ///
    /// ```
    /// use hyaloneth::Owner;
    ///
    /// assert!(Owner::Dirty.is_dirty());
    /// assert!(!Owner::Clean.is_dirty() && !Owner::Away.is_dirty());
    /// ```
    pub fn is_dirty(self) -> bool {
        self == Owner::Dirty
    }
}

/// What a component has of a block.
#[derive(Clone, Copy, Debug, PartialEq, Eq, Hash)]
pub struct Cell {
    /// How many plain tokens it holds.
    pub plain: u32,
    /// Whether it holds the owner, and the owner's mark.
    pub owner: Owner,
    /// Whether its words are valid. A load of them is answered exactly then, at home too.
    pub valid: bool,
    /// Its words, which stay when the tokens leave.
    pub words: [u32; 8],
}

impl Cell {
    /// The tokens held: plain plus owner.
    pub fn held(&self) -> u32 {
        self.plain + u32::from(self.owner.is_present())
    }
}

/// A message in flight.
#[derive(Clone, Copy, Debug, PartialEq, Eq, Hash)]
pub struct Message {
    /// The component that sent it.
    pub sender: u32,
    /// The component it goes to.
    pub target: u32,
    /// The block of its tokens.
    pub block: u32,
    /// How many plain tokens it carries.
    pub plain: u32,
    /// Whether it carries the owner, and the owner's mark.
    pub owner: Owner,
    /// Whether it carries the words. A message with the owner does, unless the owner is clean and
    /// goes home.
    pub data: bool,
    /// The words, all 0 without data.
    pub words: [u32; 8],
}

/// A set of boards.
///
/// ```
/// use hyaloneth::{Record, Refusal, Step};
///
/// let mut buffer = [0; Record::LONGEST];
/// let mut rack = Record::open(&mut buffer, 3, 1, 3)?;
/// rack.step(&Step::Raise { component: 3, block: 0 })?;
/// rack.step(&Step::Raise { component: 1, block: 0 })?;
/// let waiting = rack.view()?.waiting(0).unwrap();
/// assert_eq!(waiting.iter().collect::<Vec<_>>(), [1, 3]);
/// assert!(waiting.contains(3));
/// assert_eq!(waiting.to_string(), "{1, 3}");
/// # Ok::<(), Refusal>(())
/// ```
#[derive(Clone, Copy, Debug, PartialEq, Eq, Hash)]
pub struct Boards(u16);

impl Boards {
    /// Whether the board is in the set.
    pub fn contains(self, board: u32) -> bool {
        board < 16 && self.0 >> board & 1 == 1
    }

    /// The boards of the set, lowest first.
    pub fn iter(self) -> impl Iterator<Item = u32> {
        (0..16).filter(move |&board| self.contains(board))
    }

    /// Whether no board is in the set.
    pub fn is_empty(self) -> bool {
        self.0 == 0
    }
}

impl fmt::Display for Boards {
    fn fmt(&self, f: &mut fmt::Formatter<'_>) -> fmt::Result {
        f.write_str("{")?;
        for (i, board) in self.iter().enumerate() {
            write!(f, "{}{board}", if i == 0 { "" } else { ", " })?;
        }
        f.write_str("}")
    }
}

// The layout of docs/RECORD.md: every offset and size that this package knows. Numbers are unsigned,
// the high byte first; a figure takes one byte unless said.

// In the header: N, B, T, and how many messages are in flight.
const BOARD_COUNT: usize = 0;
const BLOCK_COUNT: usize = 1;
const TOKEN_COUNT: usize = 2;
const MESSAGE_COUNT: usize = 3;

// At its end the format, four bytes: a name of three, and the number of the layout.
const FORMAT: usize = 28;
const FORMAT_NAME: &[u8] = b"HYL";
pub(crate) const FORMAT_NUMBER: u8 = 1;

// The messages, the oldest first; then the figures in one.
const MESSAGES: usize = 32;
const MESSAGE_SIZE: usize = 40;
const MESSAGE_SENDER: usize = 0;
const MESSAGE_TARGET: usize = 1;
const MESSAGE_BLOCK: usize = 2;
const MESSAGE_PLAIN: usize = 3;
const MESSAGE_OWNER: usize = 4;
const MESSAGE_DATA: usize = 5;
const MESSAGE_DIRTY: usize = 6;
const MESSAGE_WORDS: usize = 8;

// The blocks; then, in one, where a figure of component 0 stands. Those of the next components
// follow.
const BLOCKS: usize = 2_592;
const BLOCK_SIZE: usize = 632;
const PLAIN: usize = 0;
const OWNER: usize = 16;
const VALID: usize = 32;
const DIRTY: usize = 48;
const BARRING_SETS: usize = 80;
const WORDS: usize = 120;

// In a block, its waiting set.
const WAITING_SET: usize = 112;

// The bytes of a set, of a word, and of the eight words of a component.
const SET_SIZE: usize = 2;
const WORD_SIZE: usize = 4;
const WORDS_SIZE: usize = 32;

/// Where a block starts, which is also the length of a record of so many blocks.
pub(crate) const fn block_at(block: usize) -> usize {
    BLOCKS + BLOCK_SIZE * block
}

impl<'a> View<'a> {
    /// The figures of the record at the front of a buffer. Refused with [`Refusal::Unsound`] where
    /// the engine would be; a view of a sound record meets no figure out of its range.
    pub fn of(buffer: &'a [u8]) -> Result<View<'a>, Refusal> {
        // Every sound record has board 1 and block 0, so only soundness can refuse their letter.
        letter_in(buffer, 1, 0)?;
        Ok(View { record: buffer })
    }

    /// The format of a record, the number of its layout: any bytes may be asked. None where they
    /// have no format, or are too few for a record's header. A record of another format than
    /// [`Record::FORMAT`](crate::Record::FORMAT) is not sound. One of that format may be unsound all
    /// the same.
    ///
    /// ```
    /// use hyaloneth::{Record, Refusal, View};
    ///
    /// let mut buffer = [0; Record::LONGEST];
    /// assert_eq!(View::format_of(&buffer), None);
    /// assert_eq!(View::format_of(&[]), None);
    /// Record::open(&mut buffer, 2, 1, 3)?;
    /// assert_eq!(View::format_of(&buffer), Some(Record::FORMAT));
    /// # Ok::<(), Refusal>(())
    /// ```
    pub fn format_of(bytes: &[u8]) -> Option<u8> {
        match bytes.get(FORMAT..MESSAGES)?.split_last()? {
            (&number, FORMAT_NAME) => Some(number),
            _ => None,
        }
    }

    /// N, how many boards there are.
    pub fn boards(&self) -> u32 {
        self.byte(BOARD_COUNT)
    }

    /// B, how many blocks there are.
    pub fn blocks(&self) -> u32 {
        self.byte(BLOCK_COUNT)
    }

    /// T, how many tokens each block has.
    pub fn tokens(&self) -> u32 {
        self.byte(TOKEN_COUNT)
    }

    /// How many bytes the record takes. The buffer may be longer.
    pub fn record_len(&self) -> usize {
        block_at(self.blocks() as usize)
    }

    /// The messages in flight, oldest first.
    pub fn messages(&self) -> Messages<'a> {
        let len = MESSAGE_SIZE * self.byte(MESSAGE_COUNT) as usize;
        Messages { bytes: self.record[MESSAGES..][..len].chunks_exact(MESSAGE_SIZE) }
    }

    /// What a component has of a block, or nothing off the rack.
    pub fn cell(&self, component: u32, block: u32) -> Option<Cell> {
        if component > self.boards() {
            return None;
        }
        let (at, component) = (self.block_at(block)?, component as usize);
        Some(Cell {
            plain: self.byte(at + PLAIN + component),
            owner: owner(self.byte(at + OWNER + component), self.byte(at + DIRTY + component)),
            valid: self.byte(at + VALID + component) != 0,
            words: words(&self.record[at + WORDS + WORDS_SIZE * component..]),
        })
    }

    /// The state letter of a board and a block, or nothing at home and off the rack.
    pub fn letter(&self, component: u32, block: u32) -> Option<Letter> {
        letter_in(self.record, component, block).ok()
    }

    /// The waiting set of a block, or nothing off the rack.
    pub fn waiting(&self, block: u32) -> Option<Boards> {
        Some(self.set(self.block_at(block)? + WAITING_SET))
    }

    /// The barring set of a board for a block, or nothing at home and off the rack.
    pub fn barring(&self, board: u32, block: u32) -> Option<Boards> {
        if board == 0 || board > self.boards() {
            return None;
        }
        Some(self.set(self.block_at(block)? + BARRING_SETS + SET_SIZE * board as usize))
    }

    /// The active board of a block: the lowest of the waiting ones.
    pub fn active(&self, block: u32) -> Option<u32> {
        self.waiting(block)?.iter().next()
    }

    fn block_at(&self, block: u32) -> Option<usize> {
        (block < self.blocks()).then(|| block_at(block as usize))
    }

    fn byte(&self, at: usize) -> u32 {
        u32::from(self.record[at])
    }

    fn set(&self, at: usize) -> Boards {
        Boards(u16::from_be_bytes([self.record[at], self.record[at + 1]]))
    }
}

/// The messages in flight, oldest first: see [`View::messages`].
#[derive(Clone, Debug)]
pub struct Messages<'a> {
    bytes: std::slice::ChunksExact<'a, u8>,
}

impl Iterator for Messages<'_> {
    type Item = Message;

    fn next(&mut self) -> Option<Message> {
        let message = self.bytes.next()?;
        let figure = |at: usize| u32::from(message[at]);
        Some(Message {
            sender: figure(MESSAGE_SENDER),
            target: figure(MESSAGE_TARGET),
            block: figure(MESSAGE_BLOCK),
            plain: figure(MESSAGE_PLAIN),
            owner: owner(figure(MESSAGE_OWNER), figure(MESSAGE_DIRTY)),
            data: figure(MESSAGE_DATA) != 0,
            words: words(&message[MESSAGE_WORDS..]),
        })
    }

    fn size_hint(&self) -> (usize, Option<usize>) {
        self.bytes.size_hint()
    }
}

impl ExactSizeIterator for Messages<'_> {}

/// The owner that its byte and the mark's byte tell.
fn owner(present: u32, dirty: u32) -> Owner {
    match (present, dirty) {
        (0, _) => Owner::Away,
        (_, 0) => Owner::Clean,
        _ => Owner::Dirty,
    }
}

/// The eight words at the front of these bytes.
fn words(bytes: &[u8]) -> [u32; 8] {
    std::array::from_fn(|w| {
        let word = &bytes[WORD_SIZE * w..][..WORD_SIZE];
        word.iter().fold(0, |sum, &byte| sum << 8 | u32::from(byte))
    })
}

#[cfg(test)]
mod tests {
    use super::*;
    use crate::{Record, Reply, Step};

    const FILL: u8 = 0xa5;

    /// A rack of two boards, of which board 1 has the whole block.
    fn record() -> Vec<u8> {
        let mut buffer = vec![FILL; block_at(1)];
        let mut rack = Record::open(&mut buffer, 2, 1, 3).unwrap();
        let whole =
            Step::Send { component: 0, block: 0, target: 1, plain: 2, owner: true, data: true };
        assert_eq!(rack.step(&whole), Ok(Reply::Done));
        let served = Reply::Served { component: 1, block: 0 };
        assert_eq!(rack.step(&Step::Deliver { position: 0 }), Ok(served));
        buffer
    }

    #[test]
    fn damaged_figures_are_refused() {
        let block = block_at(0);
        let above = 3;
        let figures = [
            BOARD_COUNT,
            BLOCK_COUNT,
            TOKEN_COUNT,
            MESSAGE_COUNT,
            block + PLAIN,
            block + OWNER,
            block + VALID,
            block + DIRTY,
            block + DIRTY + 1,
            block + WAITING_SET,
            block + BARRING_SETS + SET_SIZE,
            // What is 0 in every sound record: figures above N, and home's place among the sets.
            block + PLAIN + above,
            block + OWNER + above,
            block + VALID + above,
            block + DIRTY + above,
            block + BARRING_SETS + SET_SIZE * above,
            block + BARRING_SETS,
        ];
        for at in figures {
            let mut damaged = record();
            damaged[at] = 0x7f;
            assert_eq!(View::of(&damaged).err(), Some(Refusal::Unsound), "{at}");
            let before = damaged.clone();
            let deliver = Step::Deliver { position: 0 };
            assert_eq!(Record::over(&mut damaged).step(&deliver), Err(Refusal::Unsound), "{at}");
            assert_eq!(damaged, before, "{at}");
        }
    }

    #[test]
    fn room_is_neither_read_nor_changed() {
        const PLACES: usize = 16;
        let block = block_at(0);
        let room: Vec<usize> = (MESSAGE_COUNT + 1..FORMAT)
            .chain(block + DIRTY + PLACES..block + BARRING_SETS)
            .chain(block + WAITING_SET + SET_SIZE..block + WORDS)
            .chain(block + WORDS + WORDS_SIZE * 3..block_at(1))
            .collect();
        let mut buffer = record();
        assert!(room.iter().all(|&at| buffer[at] == FILL), "the opening writes no room");
        for &at in &room {
            buffer[at] = at as u8;
        }
        let mut rack = Record::over(&mut buffer);
        for step in [
            Step::Store { component: 1, block: 0, word: 7, value: u32::MAX },
            Step::Raise { component: 2, block: 0 },
            Step::Forward { component: 1, block: 0 },
            Step::Deliver { position: 0 },
            Step::Lower { component: 2, block: 0 },
        ] {
            assert!(rack.step(&step).is_ok(), "{step}");
        }
        assert_eq!(rack.view().unwrap().cell(2, 0).map(|cell| cell.words[7]), Some(u32::MAX));
        assert!(room.iter().all(|&at| buffer[at] == at as u8), "no step writes room");
    }
}
