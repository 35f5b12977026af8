//! The record's bytes by its layout: decoded to the model's rack, and a rack encoded over the bytes of a buffer.

use crate::layout::{
    BARRING, BLOCKS_OFFSET, BLOCK_SIZE, COUNT, DATA, DIRTY, HEADER_SIZE, MESH_ROOM, MESSAGE_BLOCK, MESSAGE_DIRTY, MESSAGE_OWNER,
    MESSAGE_PLAIN, MESSAGE_SIZE, MESSAGE_WORDS, MESSAGE_ZERO, OWNER, PLACES, PLAIN, SENDER, SET_SIZE, TARGET, VALID, WAITING, WORDS_SIZE,
};
use crate::layout::{BLOCKS, BOARDS, FORMAT, FORMAT_BYTES, TOKENS, WORDS as WORDS_OFFSET};
use crate::model::{flag, Block, Cell, Message, Owner, Rack, Words, WORDS};
use std::collections::BTreeSet;

pub use crate::layout::length;

/// The rack that the front of the buffer has; none where the buffer is too short or a figure has a value that the layout does not. Whether the
/// rack is sound is another question.
pub fn decode(buffer: &[u8]) -> Option<Rack> {
    let header = buffer.get(..HEADER_SIZE)?;
    let (components, count) = (usize::from(header[BOARDS]) + 1, usize::from(header[COUNT]));
    if components > PLACES || count > MESH_ROOM || header[FORMAT..] != FORMAT_BYTES {
        return None;
    }
    let record = buffer.get(..length(header[BLOCKS].into()))?;
    let mesh = record[HEADER_SIZE..].chunks(MESSAGE_SIZE).take(count).map(message).collect::<Option<_>>()?;
    let blocks = record[BLOCKS_OFFSET..].chunks(BLOCK_SIZE).map(|bytes| block(bytes, components)).collect::<Option<_>>()?;
    Some(Rack { boards: header[BOARDS], tokens: header[TOKENS].into(), blocks, mesh })
}

fn message(bytes: &[u8]) -> Option<Message> {
    zero(&bytes[MESSAGE_ZERO..MESSAGE_WORDS])?;
    Some(Message {
        sender: bytes[SENDER],
        target: bytes[TARGET],
        block: bytes[MESSAGE_BLOCK],
        plain: bytes[MESSAGE_PLAIN].into(),
        owner: owner(bytes[MESSAGE_OWNER], bytes[MESSAGE_DIRTY])?,
        data: flag(bytes[DATA])?,
        words: words(&bytes[MESSAGE_WORDS..]),
    })
}

fn block(bytes: &[u8], components: usize) -> Option<Block> {
    // What stands at places above N is 0; so is the set at place 0, since home has none.
    for figure in [PLAIN, OWNER, VALID, DIRTY] {
        zero(&bytes[figure + components..figure + PLACES])?;
    }
    let sets = &bytes[BARRING..BARRING + PLACES * SET_SIZE];
    zero(&sets[..SET_SIZE])?;
    zero(&sets[components * SET_SIZE..])?;
    let cell = |c: usize| {
        let words = words(&bytes[WORDS_OFFSET + WORDS_SIZE * c..]);
        let owner = owner(bytes[OWNER + c], bytes[DIRTY + c])?;
        Some(Cell { plain: bytes[PLAIN + c].into(), owner, valid: flag(bytes[VALID + c])?, words })
    };
    Some(Block {
        cells: (0..components).map(cell).collect::<Option<_>>()?,
        waiting: set(&bytes[WAITING..]),
        barring: (0..).zip(sets.chunks(SET_SIZE).take(components).map(set)).skip(1).collect(),
    })
}

/// The owner of two bytes. Where there is no owner, it has no mark.
fn owner(here: u8, dirty: u8) -> Option<Owner> {
    match (flag(here)?, flag(dirty)?) {
        (false, false) => Some(Owner::Away),
        (true, true) => Some(Owner::Dirty),
        (true, false) => Some(Owner::Clean),
        (false, true) => None,
    }
}

fn zero(bytes: &[u8]) -> Option<()> {
    bytes.iter().all(|&byte| byte == 0).then_some(())
}

fn words(bytes: &[u8]) -> Words {
    let mut words = [0; WORDS];
    for (word, at) in words.iter_mut().zip(bytes.chunks_exact(4)) {
        *word = at.iter().fold(0, |high, &byte| high << 8 | u32::from(byte));
    }
    words
}

fn set(bytes: &[u8]) -> BTreeSet<u8> {
    let bits = u16::from_be_bytes([bytes[0], bytes[1]]);
    (0..16).filter(|board| bits >> board & 1 == 1).collect()
}

/// Writes the figures of a rack over the front of a buffer that has room for them. What is room (words of components above N, messages past the
/// count, bytes between the figures and past the record) stays as it is.
pub fn encode(rack: &Rack, buffer: &mut [u8]) {
    let record = &mut buffer[..length(rack.blocks.len())];
    record[BOARDS] = rack.boards;
    record[BLOCKS] = rack.blocks.len() as u8;
    record[TOKENS] = rack.tokens as u8;
    record[COUNT] = rack.mesh.len() as u8;
    record[FORMAT..HEADER_SIZE].copy_from_slice(&FORMAT_BYTES);
    for (bytes, m) in record[HEADER_SIZE..].chunks_mut(MESSAGE_SIZE).zip(&rack.mesh) {
        bytes[SENDER] = m.sender;
        bytes[TARGET] = m.target;
        bytes[MESSAGE_BLOCK] = m.block;
        bytes[MESSAGE_PLAIN] = m.plain as u8;
        bytes[MESSAGE_OWNER] = m.owner.here().into();
        bytes[DATA] = m.data.into();
        bytes[MESSAGE_DIRTY] = (m.owner == Owner::Dirty).into();
        bytes[MESSAGE_ZERO] = 0;
        put_words(&mut bytes[MESSAGE_WORDS..], &m.words);
    }
    for (bytes, block) in record[BLOCKS_OFFSET..].chunks_mut(BLOCK_SIZE).zip(&rack.blocks) {
        for figure in [PLAIN, OWNER, VALID, DIRTY] {
            bytes[figure..figure + PLACES].fill(0);
        }
        for (c, cell) in block.cells.iter().enumerate() {
            bytes[PLAIN + c] = cell.plain as u8;
            bytes[OWNER + c] = cell.owner.here().into();
            bytes[VALID + c] = cell.valid.into();
            bytes[DIRTY + c] = (cell.owner == Owner::Dirty).into();
            put_words(&mut bytes[WORDS_OFFSET + WORDS_SIZE * c..], &cell.words);
        }
        bytes[BARRING..BARRING + PLACES * SET_SIZE].fill(0);
        for (&board, set) in &block.barring {
            put_set(&mut bytes[BARRING + SET_SIZE * usize::from(board)..], set);
        }
        put_set(&mut bytes[WAITING..], &block.waiting);
    }
}

pub(crate) fn put_words(bytes: &mut [u8], words: &Words) {
    for (at, word) in bytes.chunks_exact_mut(4).zip(words) {
        at.copy_from_slice(&word.to_be_bytes());
    }
}

pub(crate) fn put_set(bytes: &mut [u8], set: &BTreeSet<u8>) {
    let bits = set.iter().fold(0u16, |bits, board| bits | 1 << board);
    bytes[..SET_SIZE].copy_from_slice(&bits.to_be_bytes());
}
