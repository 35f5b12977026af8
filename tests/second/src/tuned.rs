//! A yardstick of the benchmark: the same calls with the same checks, as fast plain Rust, on another record than the engine's.
//!
//! Its layout is the one the engine had before, a cell's figures and words side by side, with the owner's mark as bit 1 of the owner's
//! byte and the format behind the counts of the header. It is known in this file alone (`encode` writes a rack in it), so the engine is
//! compared with it by results and by the rack's figures. What it shows is what the layout is worth.
//!
//! Nothing is proved here. Soundness is one pass without branches on the record's contents: complaints are gathered in a number that is 0 for a
//! sound record, and each block's tokens in one sum (plain tokens in the low half, owners in the high half).

use crate::layout::FORMAT_BYTES;
use crate::model::{self, Rack};
use crate::record;

const MESH: usize = 8;
const MESSAGE: usize = 38;
const MESH_LIMIT: u8 = 64;
const BLOCKS: usize = 2440;
const BLOCK: usize = 592;
const CELL: usize = 35;
const SETS: usize = 560;
const OWNER: u32 = 1 << 16;
/// The owner's byte: 0 where it is away.
const CLEAN: u8 = 1;
const DIRTY: u8 = 3;

const DONE: u64 = 0;

const fn refused(number: u64) -> u64 {
    1 << 56 | number
}

const TORN: u64 = refused(1);
const UNSOUND: u64 = refused(2);
const OFF_RACK: u64 = refused(3);
const HOME: u64 = refused(4);
const NO_TOKEN: u64 = refused(5);
const NO_DATA: u64 = refused(6);
const SHORT: u64 = refused(7);
const ITSELF: u64 = refused(8);
const CLAIMED: u64 = refused(9);
const EMPTY: u64 = refused(10);
const NOT_HELD: u64 = refused(11);
const BARE_OWNER: u64 = refused(12);
const MESH_FULL: u64 = refused(13);
const NO_MESSAGE: u64 = refused(14);
const WAITING: u64 = refused(15);
const BARRED: u64 = refused(16);
const NOT_WAITING: u64 = refused(17);
const UNCLAIMED: u64 = refused(18);
const SIZE: u64 = refused(19);
const SHORT_BUFFER: u64 = refused(20);

// ---- the record

/// How many bytes the record of a rack of so many blocks takes.
pub fn length(blocks: usize) -> usize {
    BLOCKS + BLOCK * blocks
}

fn owner_byte(owner: model::Owner) -> u8 {
    match owner {
        model::Owner::Away => 0,
        model::Owner::Dirty => DIRTY,
        model::Owner::Clean => CLEAN,
    }
}

/// Writes the figures of a rack over the front of a buffer that has room for them.
pub fn encode(rack: &Rack, buffer: &mut [u8]) {
    let bytes = &mut buffer[..length(rack.blocks.len())];
    bytes[..4].copy_from_slice(&[rack.boards, rack.blocks.len() as u8, rack.tokens as u8, rack.mesh.len() as u8]);
    bytes[4..MESH].copy_from_slice(&FORMAT_BYTES);
    for (bytes, m) in bytes[MESH..].chunks_mut(MESSAGE).zip(&rack.mesh) {
        bytes[..6].copy_from_slice(&[m.sender, m.target, m.block, m.plain as u8, owner_byte(m.owner), m.data.into()]);
        record::put_words(&mut bytes[6..], &m.words);
    }
    for (bytes, block) in bytes[BLOCKS..].chunks_mut(BLOCK).zip(&rack.blocks) {
        for (bytes, c) in bytes.chunks_mut(CELL).zip(&block.cells) {
            bytes[..3].copy_from_slice(&[c.plain as u8, owner_byte(c.owner), c.valid.into()]);
            record::put_words(&mut bytes[3..], &c.words);
        }
        let sets = std::iter::once(&block.waiting).chain(block.barring.values());
        for (bytes, set) in bytes[SETS..].chunks_mut(2).zip(sets) {
            record::put_set(bytes, set);
        }
    }
}

// ---- step records

#[derive(Clone, Copy)]
enum Step {
    Load { c: u8, b: u8, w: u8 },
    Store { c: u8, b: u8, w: u8, value: [u8; 4] },
    Send { c: u8, b: u8, target: u8, plain: u8, owner: u8, data: u8 },
    Deliver { position: u8 },
    Raise { c: u8, b: u8 },
    Lower { c: u8, b: u8 },
    Forward { c: u8, b: u8 },
}

/// The bytes of a kind's record that are always the same, and where they are: every other byte is a value.
struct Form<const L: usize> {
    fixed: [u8; L],
    mask: [u8; L],
}

const fn form<const L: usize>(kind: u8, tags: &[u8]) -> Form<L> {
    let mut fixed = [0; L];
    let mut mask = [0xff; L];
    fixed[0] = kind;
    fixed[2] = (L - 3) as u8;
    let mut at = 3;
    let mut i = 0;
    while i < tags.len() {
        let width = if tags[i] == 4 { 4 } else { 1 };
        fixed[at] = tags[i];
        fixed[at + 2] = width as u8;
        at += 3;
        let end = at + width;
        while at < end {
            // owner and data are 00 or 01, so only their lowest bit is free
            mask[at] = if tags[i] == 7 || tags[i] == 8 { 0xfe } else { 0 };
            at += 1;
        }
        i += 1;
    }
    assert!(at == L);
    Form { fixed, mask }
}

static LOAD: Form<15> = form(0x10, &[1, 2, 3]);
static STORE: Form<22> = form(0x11, &[1, 2, 3, 4]);
static SEND: Form<27> = form(0x12, &[1, 2, 5, 6, 7, 8]);
static DELIVER: Form<7> = form(0x13, &[9]);
static RAISE: Form<11> = form(0x14, &[1, 2]);
static LOWER: Form<11> = form(0x15, &[1, 2]);
static FORWARD: Form<11> = form(0x16, &[1, 2]);

impl<const L: usize> Form<L> {
    /// The bytes, if they are of this form: compared in words of 4 bytes, the last overlapping.
    #[inline(always)]
    fn of<'a>(&self, bytes: &'a [u8]) -> Option<&'a [u8; L]> {
        let bytes: &[u8; L] = bytes.try_into().ok()?;
        let mut differ = 0;
        let mut i = 0;
        while i < L {
            let at = if i + 4 <= L { i } else { L - 4 };
            differ |= (le32(bytes, at) ^ le32(&self.fixed, at)) & le32(&self.mask, at);
            i += 4;
        }
        (differ == 0).then_some(bytes)
    }
}

#[inline(always)]
fn le32(bytes: &[u8], at: usize) -> u32 {
    u32::from_le_bytes(*bytes[at..].first_chunk().expect("four bytes"))
}

#[inline(always)]
fn le64(bytes: &[u8], at: usize) -> u64 {
    u64::from_le_bytes(*bytes[at..].first_chunk().expect("eight bytes"))
}

#[inline(always)]
fn parse(bytes: &[u8]) -> Option<Step> {
    Some(match *bytes.first()? {
        0x10 => {
            let x = LOAD.of(bytes)?;
            Step::Load { c: x[6], b: x[10], w: x[14] }
        }
        0x11 => {
            let x = STORE.of(bytes)?;
            Step::Store { c: x[6], b: x[10], w: x[14], value: [x[18], x[19], x[20], x[21]] }
        }
        0x12 => {
            let x = SEND.of(bytes)?;
            Step::Send { c: x[6], b: x[10], target: x[14], plain: x[18], owner: x[22], data: x[26] }
        }
        0x13 => Step::Deliver { position: DELIVER.of(bytes)?[6] },
        0x14 => {
            let x = RAISE.of(bytes)?;
            Step::Raise { c: x[6], b: x[10] }
        }
        0x15 => {
            let x = LOWER.of(bytes)?;
            Step::Lower { c: x[6], b: x[10] }
        }
        0x16 => {
            let x = FORWARD.of(bytes)?;
            Step::Forward { c: x[6], b: x[10] }
        }
        _ => return None,
    })
}

// ---- soundness

/// For N boards, which of a block's 32 bytes of sets are barring sets: as words of 8 bytes, low byte first.
const BARRING: [[u64; 4]; 16] = {
    let mut masks = [[0; 4]; 16];
    let mut n = 1;
    while n < 16 {
        let mut i = 1;
        while i <= n {
            masks[n][i / 4] |= 0xffff << (16 * (i % 4));
            i += 1;
        }
        n += 1;
    }
    masks
};

fn sound(rec: &[u8]) -> bool {
    let Some(&[n, b, t, count, ref format @ ..]) = rec.first_chunk::<MESH>() else {
        return false;
    };
    let sizes = (1..=15).contains(&n) && (1..=32).contains(&b) && n <= t && t <= 64 && count <= MESH_LIMIT;
    if !sizes || rec.len() < BLOCKS + BLOCK * usize::from(b) || *format != FORMAT_BYTES {
        return false;
    }
    let (mesh, blocks) = rec.split_at(BLOCKS);
    let mut sums = [0u32; 32];
    let mut bad = 0u32;
    for m in mesh[MESH..].chunks_exact(MESSAGE).take(count.into()) {
        let (sender, target, block, plain, owner, data) = (m[0], m[1], m[2], m[3], m[4], m[5]);
        let words = le64(m, 6) | le64(m, 14) | le64(m, 22) | le64(m, 30);
        bad |= u32::from(sender > n) | u32::from(target > n) | u32::from(sender == target) | u32::from(block >= b);
        bad |= u32::from(data > 1) | u32::from(owner > DIRTY) | u32::from(owner == 2) | u32::from(plain | owner == 0);
        // without data: no words, no dirty owner, and a clean one for home alone
        bad |= u32::from(data == 0) & (u32::from(words != 0) | u32::from(owner > CLEAN) | u32::from(owner != 0) & u32::from(target != 0));
        sums[usize::from(block & 31)] += u32::from(plain) + u32::from(owner & CLEAN) * OWNER;
    }
    if bad != 0 {
        return false;
    }
    let masks = &BARRING[usize::from(n & 15)];
    // boards 1 to N, with the bytes of a set swapped as `le64` has them
    let boards = ((2u16 << n).wrapping_sub(2)).swap_bytes();
    let whole = u32::from(t) - 1 + OWNER;
    let cells = usize::from(n) + 1;
    for (bytes, flying) in blocks.chunks_exact(BLOCK).zip(&sums).take(b.into()) {
        let mut sum = *flying;
        for cell in bytes[..SETS].chunks_exact(CELL).take(cells) {
            let x = le32(cell, 0) & 0x00ff_ffff;
            // bits that no mark has, dirty without the owner, the owner without valid; then valid without a token
            bad |= x & !(x << 1 & 0x0200 | x >> 8 & 0x0100) & 0x00fe_ff00 | u32::from(x == 0x0001_0000);
            sum += (x & 0xff) + (x >> 8 & 1) * OWNER;
        }
        bad |= sum ^ whole;
        let sets = &bytes[SETS..];
        let first = le64(sets, 0);
        let waiting = first as u16;
        let mut barring = first & masks[0] | le64(sets, 8) & masks[1] | le64(sets, 16) & masks[2] | le64(sets, 24) & masks[3];
        barring |= barring >> 32;
        barring |= barring >> 16;
        bad |= u32::from(waiting & !boards | barring as u16 & !waiting);
        // a waiting board's barring set is empty
        if barring as u16 != 0 {
            let mut left = waiting.swap_bytes();
            while left != 0 {
                let at = 2 * left.trailing_zeros() as usize;
                bad |= u32::from(sets[at] | sets[at + 1]);
                left &= left - 1;
            }
        }
    }
    bad == 0
}

// ---- steps on a sound record

#[inline(always)]
fn block_at(b: u8) -> usize {
    BLOCKS + BLOCK * usize::from(b)
}

#[inline(always)]
fn cell_at(c: u8, b: u8) -> usize {
    block_at(b) + CELL * usize::from(c)
}

#[inline(always)]
fn set_at(i: u8, b: u8) -> usize {
    block_at(b) + SETS + 2 * usize::from(i)
}

#[inline(always)]
fn set(rec: &[u8], at: usize) -> u16 {
    u16::from_be_bytes([rec[at], rec[at + 1]])
}

#[inline(always)]
fn put_set(rec: &mut [u8], at: usize, set: u16) {
    rec[at..at + 2].copy_from_slice(&set.to_be_bytes());
}

/// Takes the tokens from the cell and appends the message. The owner's byte is the cell's, or 0.
#[inline(always)]
fn send(rec: &mut [u8], c: u8, b: u8, target: u8, plain: u8, owner: u8, data: u8) -> u64 {
    let from = cell_at(c, b);
    let to = MESH + MESSAGE * usize::from(rec[3]);
    rec[3] += 1;
    rec[to..to + 6].copy_from_slice(&[c, target, b, plain, owner, data]);
    if data == 1 {
        rec.copy_within(from + 3..from + CELL, to + 6);
    } else {
        rec[to + 6..to + MESSAGE].fill(0);
    }
    rec[from] -= plain;
    rec[from + 1] -= owner;
    if rec[from] | rec[from + 1] == 0 {
        rec[from + 2] = 0;
    }
    DONE
}

#[inline(always)]
fn apply(rec: &mut [u8], step: Step) -> u64 {
    let (n, blocks, t, count) = (rec[0], rec[1], rec[2], rec[3]);
    match step {
        Step::Load { c, b, w } => {
            if c > n || b >= blocks || w > 7 {
                return OFF_RACK;
            }
            let at = cell_at(c, b);
            if rec[at] | rec[at + 1] == 0 {
                return NO_TOKEN;
            }
            if rec[at + 2] == 0 {
                return NO_DATA;
            }
            let word = le32(rec, at + 3 + 4 * usize::from(w)).swap_bytes();
            2 << 56 | u64::from(word)
        }
        Step::Store { c, b, w, value } => {
            if c > n || b >= blocks || w > 7 {
                return OFF_RACK;
            }
            if c == 0 {
                return HOME;
            }
            let at = cell_at(c, b);
            if rec[at] + (rec[at + 1] & CLEAN) < t {
                return SHORT;
            }
            rec[at + 1] = DIRTY;
            let at = at + 3 + 4 * usize::from(w);
            rec[at..at + 4].copy_from_slice(&value);
            DONE
        }
        Step::Send { c, b, target, plain, owner, data } => {
            if c > n || b >= blocks || target > n {
                return OFF_RACK;
            }
            if c == target {
                return ITSELF;
            }
            if set(rec, set_at(0, b)) != 0 {
                return CLAIMED;
            }
            if plain | owner == 0 {
                return EMPTY;
            }
            let at = cell_at(c, b);
            if plain > rec[at] || owner > rec[at + 1] {
                return NOT_HELD;
            }
            if owner > data && (target != 0 || rec[at + 1] == DIRTY) {
                return BARE_OWNER;
            }
            if data > rec[at + 2] {
                return NO_DATA;
            }
            if count == MESH_LIMIT {
                return MESH_FULL;
            }
            send(rec, c, b, target, plain, if owner == 1 { rec[at + 1] } else { 0 }, data)
        }
        Step::Deliver { position } => {
            if position >= count {
                return NO_MESSAGE;
            }
            let from = MESH + MESSAGE * usize::from(position);
            let (target, b) = (rec[from + 1], rec[from + 2]);
            let to = cell_at(target, b);
            let (plain, owner, data) = (rec[from + 3], rec[from + 4], rec[from + 5]);
            rec[to] += plain;
            // at home it is clean
            rec[to + 1] += if target == 0 { owner & CLEAN } else { owner };
            // an owner without data is a clean one for home, which has its words
            rec[to + 2] |= data | owner & CLEAN;
            if data == 1 {
                rec.copy_within(from + 6..from + MESSAGE, to + 3);
            }
            rec.copy_within(from + MESSAGE..MESH + MESSAGE * usize::from(count), from);
            rec[3] -= 1;
            4 << 56 | u64::from(target) << 48 | u64::from(b) << 32
        }
        Step::Raise { c, b } => {
            if c > n || b >= blocks {
                return OFF_RACK;
            }
            if c == 0 {
                return HOME;
            }
            let waiting = set(rec, set_at(0, b));
            if waiting >> c & 1 == 1 {
                return WAITING;
            }
            if set(rec, set_at(c, b)) != 0 {
                return BARRED;
            }
            put_set(rec, set_at(0, b), waiting | 1 << c);
            DONE
        }
        Step::Lower { c, b } => {
            if c > n || b >= blocks {
                return OFF_RACK;
            }
            if c == 0 {
                return HOME;
            }
            let waiting = set(rec, set_at(0, b));
            if waiting >> c & 1 == 0 {
                return NOT_WAITING;
            }
            let others = !(1u16 << c);
            for i in 0..=n {
                let at = set_at(i, b);
                put_set(rec, at, set(rec, at) & others);
            }
            put_set(rec, set_at(c, b), waiting & others);
            DONE
        }
        Step::Forward { c, b } => {
            if c > n || b >= blocks {
                return OFF_RACK;
            }
            let waiting = set(rec, set_at(0, b));
            if waiting == 0 {
                return UNCLAIMED;
            }
            let active = waiting.trailing_zeros() as u8;
            if active == c {
                return ITSELF;
            }
            let at = cell_at(c, b);
            let (plain, owner, valid) = (rec[at], rec[at + 1], rec[at + 2]);
            if plain | owner == 0 {
                return NO_TOKEN;
            }
            if count == MESH_LIMIT {
                return MESH_FULL;
            }
            send(rec, c, b, active, plain, owner, valid)
        }
    }
}

// ---- the calls

pub fn record_len(blocks: u32) -> u64 {
    if (1..=32).contains(&blocks) {
        BLOCKS as u64 + BLOCK as u64 * u64::from(blocks)
    } else {
        SIZE
    }
}

pub fn open(rec: &mut [u8], boards: u32, blocks: u32, tokens: u32) -> u64 {
    if !(1..=15).contains(&boards) || !(1..=32).contains(&blocks) || tokens < boards || tokens > 64 {
        return SIZE;
    }
    let length = BLOCKS + BLOCK * blocks as usize;
    if rec.len() < length {
        return SHORT_BUFFER;
    }
    rec[..4].copy_from_slice(&[boards as u8, blocks as u8, tokens as u8, 0]);
    rec[4..MESH].copy_from_slice(&FORMAT_BYTES);
    let components = boards as usize + 1;
    for block in rec[BLOCKS..length].chunks_exact_mut(BLOCK) {
        block[..CELL * components].fill(0);
        block[..3].copy_from_slice(&[tokens as u8 - 1, 1, 1]);
        block[SETS..SETS + 2 * components].fill(0);
    }
    DONE
}

pub fn step(rec: &mut [u8], bytes: &[u8]) -> u64 {
    let Some(step) = parse(bytes) else {
        return TORN;
    };
    if !sound(rec) {
        return UNSOUND;
    }
    apply(rec, step)
}

pub fn run(rec: &mut [u8], list: &[u8], at: &mut usize, replies: &mut [u64]) -> usize {
    let sound = sound(rec);
    let mut left = list.get(*at..).unwrap_or(&[]);
    let mut made = 0;
    for reply in replies {
        if left.is_empty() {
            break;
        }
        let size = match left {
            [_, high, low, ..] => (3 + usize::from(u16::from_be_bytes([*high, *low]))).min(left.len()),
            _ => left.len(),
        };
        let (bytes, rest) = left.split_at(size);
        *reply = match parse(bytes) {
            None => TORN,
            Some(_) if !sound => UNSOUND,
            Some(step) => apply(rec, step),
        };
        *at += size;
        left = rest;
        made += 1;
    }
    made
}

pub fn letter(rec: &[u8], component: u32, block: u32) -> u64 {
    if !sound(rec) {
        return UNSOUND;
    }
    if component > u32::from(rec[0]) || block >= u32::from(rec[1]) {
        return OFF_RACK;
    }
    if component == 0 {
        return HOME;
    }
    let at = cell_at(component as u8, block as u8);
    let (plain, owner, valid) = (rec[at], rec[at + 1], rec[at + 2]);
    let whole = plain + (owner & CLEAN) == rec[2];
    let letter = match owner {
        DIRTY if whole => b'M',
        CLEAN if whole => b'E',
        CLEAN | DIRTY => b'O',
        _ if valid == 1 => b'S',
        _ => b'I',
    };
    3 << 56 | u64::from(letter)
}
