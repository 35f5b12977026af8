//! The byte layout of the record, by docs/RECORD.md: each number stands here once.

/// The header: N, B, T and the count of messages in a byte each; then room; then the format.
pub const HEADER_SIZE: usize = 32;
pub const BOARDS: usize = 0;
pub const BLOCKS: usize = 1;
pub const TOKENS: usize = 2;
pub const COUNT: usize = 3;
pub const FORMAT: usize = 28;
/// What a sound record has there: three bytes of a name, and the number of the layout.
pub const FORMAT_BYTES: [u8; 4] = *b"HYL\x01";

/// The mesh stands behind the header.
pub const MESH_ROOM: usize = 64;
pub const MESSAGE_SIZE: usize = 40;
pub const SENDER: usize = 0;
pub const TARGET: usize = 1;
pub const MESSAGE_BLOCK: usize = 2;
pub const MESSAGE_PLAIN: usize = 3;
pub const MESSAGE_OWNER: usize = 4;
pub const DATA: usize = 5;
/// The owner's mark: 1 dirty, 0 clean or no owner.
pub const MESSAGE_DIRTY: usize = 6;
/// A sound record has 0 here.
pub const MESSAGE_ZERO: usize = 7;
pub const MESSAGE_WORDS: usize = 8;

pub const BLOCKS_OFFSET: usize = HEADER_SIZE + MESH_ROOM * MESSAGE_SIZE;
pub const BLOCK_SIZE: usize = 632;
/// In a block each figure has a place for so many components. Places above N are 0 in a sound record, but for the words, which are room there.
pub const PLACES: usize = 16;
pub const PLAIN: usize = 0;
pub const OWNER: usize = 16;
pub const VALID: usize = 32;
/// The owner's mark: 1 dirty, 0 clean or no owner.
pub const DIRTY: usize = 48;
/// The barring set of board i is at place i; place 0 is 0 in a sound record.
pub const BARRING: usize = 80;
pub const SET_SIZE: usize = 2;
pub const WAITING: usize = 112;
pub const WORDS: usize = 120;
pub const WORDS_SIZE: usize = 32;

pub const fn message_offset(i: usize) -> usize {
    HEADER_SIZE + MESSAGE_SIZE * i
}

pub const fn block_offset(block: usize) -> usize {
    BLOCKS_OFFSET + BLOCK_SIZE * block
}

/// How many bytes the record of a rack of so many blocks takes.
pub const fn length(blocks: usize) -> usize {
    block_offset(blocks)
}
