//! The other yardstick of the benchmark: the same calls with the same checks on the record's own bytes, in Rust without restraint (raw pointers,
//! SSE2, no check of an index). It shows what the checks cost at least; every part of soundness is decided here too.
//!
//! Nothing is proved. Soundness gathers complaints in vectors and looks at them once. Each block has one sum: plain tokens in its low half, owners
//! in its high half, starting at what makes a sound block's sum 0.

use crate::layout::{
    block_offset, length, message_offset, BARRING, BLOCKS, BLOCKS_OFFSET, BLOCK_SIZE, BOARDS, COUNT, DATA, DIRTY, FORMAT, FORMAT_BYTES,
    HEADER_SIZE, MESH_ROOM, MESSAGE_BLOCK, MESSAGE_DIRTY, MESSAGE_OWNER, MESSAGE_PLAIN, MESSAGE_SIZE, MESSAGE_WORDS, OWNER, PLACES, PLAIN,
    SENDER, SET_SIZE, TARGET, TOKENS, VALID, WAITING, WORDS, WORDS_SIZE,
};
use core::arch::x86_64::{
    __m128i, _mm_add_epi32, _mm_add_epi64, _mm_and_si128, _mm_andnot_si128, _mm_castpd_si128, _mm_castsi128_pd, _mm_cmpeq_epi16,
    _mm_cmpeq_epi8, _mm_cmpgt_epi32, _mm_cvtsi128_si32, _mm_load_si128, _mm_loadh_pd, _mm_loadl_epi64, _mm_loadu_si128, _mm_madd_epi16,
    _mm_min_epu8, _mm_movemask_epi8, _mm_or_si128, _mm_packs_epi16, _mm_sad_epu8, _mm_set1_epi16, _mm_set1_epi32, _mm_set1_epi64x,
    _mm_set1_epi8, _mm_setzero_si128, _mm_shuffle_epi32, _mm_slli_epi64, _mm_srli_epi64, _mm_store_si128, _mm_storeu_si128, _mm_sub_epi8,
    _mm_subs_epu8, _mm_unpackhi_epi64, _mm_unpackhi_epi8, _mm_unpacklo_epi64, _mm_unpacklo_epi8,
};
use core::hint::select_unpredictable;
use core::mem::MaybeUninit;

const DONE: u64 = 0;

const fn refused(number: u64) -> u64 {
    1 << 56 | number
}

const TORN: u64 = refused(1);
const UNSOUND: u64 = refused(2);
const OFF_RACK: u64 = refused(3);
const HOME: u64 = refused(4);
const NO_TOKEN: u64 = refused(5);
const NO_DATA: u64 = refused(6);
const SHORT: u64 = refused(7);
const ITSELF: u64 = refused(8);
const CLAIMED: u64 = refused(9);
const EMPTY: u64 = refused(10);
const NOT_HELD: u64 = refused(11);
const BARE_OWNER: u64 = refused(12);
const MESH_FULL: u64 = refused(13);
const NO_MESSAGE: u64 = refused(14);
const WAITS: u64 = refused(15);
const BARRED: u64 = refused(16);
const NOT_WAITING: u64 = refused(17);
const UNCLAIMED: u64 = refused(18);
const SIZE: u64 = refused(19);
const SHORT_BUFFER: u64 = refused(20);

#[repr(align(16))]
struct Aligned<T>(T);

// ---- step records

/// Two stretches of 8 or 16 bytes that cover a kind's record: which of their bits are always the same, and how. They may overlap.
struct Form<const SPAN: usize> {
    mask: Aligned<[[u8; SPAN]; 2]>,
    fixed: Aligned<[[u8; SPAN]; 2]>,
}

const fn form<const SPAN: usize, const L: usize>(kind: u8, tags: &[u8]) -> Form<SPAN> {
    let mut fixed = [0; L];
    let mut mask = [0xff; L];
    fixed[0] = kind;
    fixed[2] = (L - 3) as u8;
    let mut at = 3;
    let mut i = 0;
    while i < tags.len() {
        let width = if tags[i] == 4 { 4 } else { 1 };
        fixed[at] = tags[i];
        fixed[at + 2] = width as u8;
        at += 3;
        let end = at + width;
        while at < end {
            // owner and data are 00 or 01, so only their lowest bit is free
            mask[at] = if tags[i] == 7 || tags[i] == 8 { 0xfe } else { 0 };
            at += 1;
        }
        i += 1;
    }
    assert!(at == L && SPAN <= L && L <= 2 * SPAN);
    let mut form = Form { mask: Aligned([[0; SPAN]; 2]), fixed: Aligned([[0; SPAN]; 2]) };
    let mut i = 0;
    while i < SPAN {
        let last = L - SPAN + i;
        (form.mask.0[0][i], form.fixed.0[0][i]) = (mask[i], fixed[i]);
        (form.mask.0[1][i], form.fixed.0[1][i]) = (mask[last], fixed[last]);
        i += 1;
    }
    form
}

const LOAD_SIZE: usize = 15;
const STORE_SIZE: usize = 22;
const SEND_SIZE: usize = 27;
const DELIVER_SIZE: usize = 7;
const CLAIM_SIZE: usize = 11;

static LOAD: Form<8> = form::<8, LOAD_SIZE>(0x10, &[1, 2, 3]);
static STORE: Form<16> = form::<16, STORE_SIZE>(0x11, &[1, 2, 3, 4]);
static SEND: Form<16> = form::<16, SEND_SIZE>(0x12, &[1, 2, 5, 6, 7, 8]);
static RAISE: Form<8> = form::<8, CLAIM_SIZE>(0x14, &[1, 2]);
static LOWER: Form<8> = form::<8, CLAIM_SIZE>(0x15, &[1, 2]);
static FORWARD: Form<8> = form::<8, CLAIM_SIZE>(0x16, &[1, 2]);

impl Form<8> {
    /// Whether the `L` bytes are of this form.
    #[inline(always)]
    unsafe fn fits<const L: usize>(&self, p: *const u8) -> bool {
        let found = pair(p, p.add(L - 8));
        let kept = _mm_and_si128(found, _mm_load_si128((&raw const self.mask).cast()));
        all_ones(_mm_cmpeq_epi8(kept, _mm_load_si128((&raw const self.fixed).cast())))
    }
}

impl Form<16> {
    #[inline(always)]
    unsafe fn fits<const L: usize>(&self, p: *const u8) -> bool {
        let (mask, fixed) = ((&raw const self.mask).cast::<__m128i>(), (&raw const self.fixed).cast::<__m128i>());
        let first = _mm_cmpeq_epi8(_mm_and_si128(load(p), _mm_load_si128(mask)), _mm_load_si128(fixed));
        let last = _mm_cmpeq_epi8(_mm_and_si128(load(p.add(L - 16)), _mm_load_si128(mask.add(1))), _mm_load_si128(fixed.add(1)));
        all_ones(_mm_and_si128(first, last))
    }
}

#[inline(always)]
unsafe fn load(p: *const u8) -> __m128i {
    _mm_loadu_si128(p.cast())
}

#[inline(always)]
unsafe fn store(p: *mut u8, x: __m128i) {
    _mm_storeu_si128(p.cast(), x);
}

/// Eight bytes at each of two places.
#[inline(always)]
unsafe fn pair(p: *const u8, q: *const u8) -> __m128i {
    _mm_castpd_si128(_mm_loadh_pd(_mm_castsi128_pd(_mm_loadl_epi64(p.cast())), q.cast()))
}

#[inline(always)]
unsafe fn all_ones(x: __m128i) -> bool {
    _mm_movemask_epi8(x) == 0xffff
}

#[inline(always)]
unsafe fn zero(x: __m128i) -> bool {
    all_ones(_mm_cmpeq_epi8(x, _mm_setzero_si128()))
}

/// How long the first record of a list is: it may be cut short.
#[inline(always)]
unsafe fn cut(p: *const u8, left: usize) -> usize {
    if left < 3 {
        return left;
    }
    (3 + usize::from(p.add(1).cast::<u16>().read_unaligned().swap_bytes())).min(left)
}

// ---- soundness

/// For N boards: 1 at the places of components 0 to N, and all bits at those of components above.
static KNOWN: [Aligned<[u8; PLACES]>; 16] = lanes(1, 0);
static ABOVE: [Aligned<[u8; PLACES]>; 16] = lanes(0, 0xff);

const fn lanes(known: u8, above: u8) -> [Aligned<[u8; PLACES]>; 16] {
    let mut rows = [const { Aligned([0; PLACES]) }; 16];
    let mut n = 0;
    while n < 16 {
        let mut c = 0;
        while c < PLACES {
            rows[n].0[c] = if c <= n { known } else { above };
            c += 1;
        }
        n += 1;
    }
    rows
}

/// The number that a set's two bytes make where they are loaded low byte first: board i has bit i ^ 8.
const fn bit(board: u8) -> u16 {
    (1u16 << board).swap_bytes()
}

/// What was seen in the blocks so far.
struct Seen {
    /// A place that is not 0: a dirty mark without an owner, an owner without valid, or valid without a token.
    marks: __m128i,
    plain: __m128i,
    valid: __m128i,
    /// In its low half, as the bytes stand.
    waiting: u32,
    /// A place that is not 0: a barring set outside the waiting set.
    outside: __m128i,
    /// The boards with a barring set, and those of them that wait.
    barred: u32,
    both: u32,
}

impl Seen {
    /// The tokens of a block in two sums, one for each half of its places.
    #[inline(always)]
    unsafe fn tokens(&mut self, p: *const u8) -> __m128i {
        let (plain, owner, valid, dirty) = (load(p.add(PLAIN)), load(p.add(OWNER)), load(p.add(VALID)), load(p.add(DIRTY)));
        // Where the sums are right, there is one owner in the block and no plain count above 63; valid is 0 or 1 by the look at all of
        // them. So valid less owner is 255 for an owner without valid, which no plain count reaches, and 1 for valid without the owner,
        // which any does.
        self.marks = _mm_or_si128(self.marks, _mm_subs_epu8(_mm_sub_epi8(valid, owner), plain));
        self.marks = _mm_or_si128(self.marks, _mm_subs_epu8(dirty, owner));
        self.plain = _mm_or_si128(self.plain, plain);
        self.valid = _mm_or_si128(self.valid, valid);
        // Two bytes of room behind the set are loaded with it: then the load is part of the instruction that uses it.
        self.waiting |= p.add(WAITING).cast::<u32>().read_unaligned();
        let none = _mm_setzero_si128();
        _mm_add_epi64(_mm_sad_epu8(plain, none), _mm_slli_epi64::<16>(_mm_sad_epu8(owner, none)))
    }

    /// The claims of a block in which some board is barred.
    #[inline(always)]
    unsafe fn claims(&mut self, p: *const u8) {
        let waiting = p.add(WAITING).cast::<u16>().read_unaligned();
        let (low, high) = (load(p.add(BARRING)), load(p.add(BARRING + 16)));
        let none = _mm_setzero_si128();
        let empty = _mm_movemask_epi8(_mm_packs_epi16(_mm_cmpeq_epi16(low, none), _mm_cmpeq_epi16(high, none))) as u32;
        let barred = empty ^ 0xffff;
        self.barred |= barred;
        self.both |= barred & u32::from(waiting.swap_bytes());
        self.outside = _mm_or_si128(self.outside, _mm_andnot_si128(_mm_set1_epi16(waiting as i16), _mm_or_si128(low, high)));
    }
}

/// A block's barring sets in half as many places: 0 where all of them are empty.
#[inline(always)]
unsafe fn barring(p: *const u8) -> __m128i {
    _mm_or_si128(load(p.add(BARRING)), load(p.add(BARRING + 16)))
}

/// Whether the front of a buffer is a sound record.
#[inline(always)]
unsafe fn sound(rec: *const u8, len: usize) -> bool {
    if len < length(1) {
        return false;
    }
    let (n, b, t, count) = (*rec.add(BOARDS), *rec.add(BLOCKS), *rec.add(TOKENS), usize::from(*rec.add(COUNT)));
    if n.wrapping_sub(1) > 14 || b.wrapping_sub(1) > 31 || t < n || t > 64 || count > MESH_ROOM || len < length(b.into()) {
        return false;
    }
    if rec.add(FORMAT).cast::<u32>().read_unaligned() != u32::from_ne_bytes(FORMAT_BYTES) {
        return false;
    }
    let mut room = MaybeUninit::<Aligned<[u32; 32]>>::uninit();
    let sums = room.as_mut_ptr().cast::<u32>();
    let start = _mm_set1_epi32(-(i32::from(t) - 1 + (1 << 16)));
    _mm_store_si128(sums.cast(), start);
    let mut last = 3;
    if b > 4 {
        for i in 1..8 {
            _mm_store_si128(sums.cast::<__m128i>().add(i), start);
        }
        last = 31;
    }
    if count != 0 && !mesh(rec, n, b, count, Sums { sums, last }) {
        return false;
    }
    let none = _mm_setzero_si128();
    let mut seen = Seen { marks: none, plain: none, valid: none, waiting: 0, outside: none, barred: 0, both: 0 };
    let mut p = rec.add(BLOCKS_OFFSET);
    let mut sum = sums.cast_const();
    let mut bad = none;
    let end = sums.add(usize::from(b & !3));
    while sum != end {
        let (p1, p2, p3) = (p.add(BLOCK_SIZE), p.add(2 * BLOCK_SIZE), p.add(3 * BLOCK_SIZE));
        let first = _mm_or_si128(seen.tokens(p), _mm_slli_epi64::<32>(seen.tokens(p1)));
        let last = _mm_or_si128(seen.tokens(p2), _mm_slli_epi64::<32>(seen.tokens(p3)));
        let held = _mm_add_epi32(_mm_unpacklo_epi64(first, last), _mm_unpackhi_epi64(first, last));
        bad = _mm_or_si128(bad, _mm_add_epi32(held, _mm_load_si128(sum.cast())));
        // Packing keeps what is not 0 so: four bits for each block.
        let sets = _mm_packs_epi16(_mm_packs_epi16(barring(p), barring(p1)), _mm_packs_epi16(barring(p2), barring(p3)));
        let mut some = _mm_movemask_epi8(_mm_cmpeq_epi8(sets, none)) as u32 ^ 0xffff;
        while some != 0 {
            let block = some.trailing_zeros() / 4;
            seen.claims(p.add(BLOCK_SIZE * block as usize));
            some &= !(0xf << (4 * block));
        }
        sum = sum.add(4);
        p = p.add(4 * BLOCK_SIZE);
    }
    let mut odd = 0;
    for _ in 0..b & 3 {
        let halves = seen.tokens(p);
        let held = _mm_cvtsi128_si32(_mm_add_epi32(halves, _mm_unpackhi_epi64(halves, halves)));
        odd |= held.wrapping_add(*sum as i32) as u32;
        seen.claims(p);
        sum = sum.add(1);
        p = p.add(BLOCK_SIZE);
    }
    let known = _mm_load_si128((&raw const KNOWN[usize::from(n)]).cast());
    let above = _mm_load_si128((&raw const ABOVE[usize::from(n)]).cast());
    let places = _mm_or_si128(_mm_and_si128(seen.plain, above), _mm_subs_epu8(seen.valid, known));
    let all = _mm_or_si128(_mm_or_si128(bad, seen.marks), _mm_or_si128(places, seen.outside));
    // boards 1 to N
    let boards = (2u32 << n) - 2;
    let waiting = u32::from((seen.waiting as u16).swap_bytes());
    (odd | seen.both | (seen.barred | waiting) & !boards) == 0 && zero(all)
}

/// What was seen in the messages so far: a byte of each message's head at each place, two messages side by side.
struct Heads {
    /// No byte of a head is above this.
    most: __m128i,
    above: __m128i,
    same: __m128i,
    /// At the target's place, not 0: an owner without data for a board.
    bare: __m128i,
    /// In the second half of a head, below 0: a dirty mark beside which the owner or data is missing.
    dirty: __m128i,
    tokens: __m128i,
    words: __m128i,
}

impl Heads {
    /// Owner and data stand in one number of two bytes, the mark is the next. This makes of them owner + 256 data - 257 dirty.
    const WEIGHTS: i64 = 1 << (8 * MESSAGE_OWNER) | (-257 << (8 * MESSAGE_DIRTY));

    /// Two messages; gives their heads.
    #[inline(always)]
    unsafe fn see(&mut self, p: *const u8, q: *const u8) -> __m128i {
        let heads = pair(p, q);
        // each byte beside the one behind it
        let next = _mm_srli_epi64::<8>(heads);
        self.above = _mm_or_si128(self.above, _mm_subs_epu8(heads, self.most));
        self.same = _mm_or_si128(self.same, _mm_cmpeq_epi8(heads, next));
        // the owner, and data, at the target's place
        let owner = _mm_srli_epi64::<{ 8 * (MESSAGE_OWNER - TARGET) as i32 }>(heads);
        let data = _mm_srli_epi64::<{ 8 * (DATA - TARGET) as i32 }>(heads);
        self.bare = _mm_or_si128(self.bare, _mm_min_epu8(_mm_subs_epu8(owner, data), heads));
        self.dirty = _mm_or_si128(self.dirty, _mm_madd_epi16(heads, _mm_set1_epi64x(Heads::WEIGHTS)));
        self.tokens = _mm_min_epu8(self.tokens, _mm_or_si128(heads, next));
        // The second half of a head is below this where data is 0; not where the owner is dirty, which is unsound then.
        let bare = _mm_cmpgt_epi32(_mm_set1_epi32(1 << (8 * (DATA - MESSAGE_OWNER))), heads);
        for (at, bare) in [(p, _mm_shuffle_epi32::<0b01_01_01_01>(bare)), (q, _mm_shuffle_epi32::<0b11_11_11_11>(bare))] {
            let words = _mm_or_si128(load(at.add(MESSAGE_WORDS)), load(at.add(MESSAGE_WORDS + 16)));
            self.words = _mm_or_si128(self.words, _mm_and_si128(words, bare));
        }
        heads
    }
}

/// A message's tokens as a sum: the plain count in the low half, the owner in the high one.
#[inline(always)]
unsafe fn weights(heads: __m128i) -> (u32, u32) {
    let none = _mm_setzero_si128();
    let tokens = _mm_srli_epi64::<{ 8 * MESSAGE_PLAIN as i32 }>(heads);
    (_mm_cvtsi128_si32(_mm_unpacklo_epi8(tokens, none)) as u32, _mm_cvtsi128_si32(_mm_unpackhi_epi8(tokens, none)) as u32)
}

/// The blocks' sums, as many as `last` and one more: a power of two.
#[derive(Clone, Copy)]
struct Sums {
    sums: *mut u32,
    last: usize,
}

impl Sums {
    /// Adds to the sum of a message's block, before it is known that there is such a block: the record is unsound where there is none, and any sum
    /// will do. The byte is loaded once more, since the compiler would take it out of the vector, which is longer.
    #[inline(always)]
    unsafe fn add(self, message: *const u8, weight: u32) {
        let sum = self.sums.add(usize::from(message.add(MESSAGE_BLOCK).read_volatile()) & self.last);
        *sum = (*sum).wrapping_add(weight);
    }
}

/// Whether the messages are sound; their tokens are added to the sums of their blocks.
#[inline(always)]
unsafe fn mesh(rec: *const u8, n: u8, b: u8, count: usize, sums: Sums) -> bool {
    let none = _mm_setzero_si128();
    let mut most = [0; MESSAGE_WORDS];
    (most[SENDER], most[TARGET], most[MESSAGE_BLOCK], most[MESSAGE_PLAIN]) = (n, n, b - 1, 0xff);
    (most[MESSAGE_OWNER], most[DATA], most[MESSAGE_DIRTY]) = (1, 1, 1);
    let most = _mm_set1_epi64x(i64::from_le_bytes(most));
    let mut heads = Heads { most, above: none, same: none, bare: none, dirty: none, tokens: _mm_set1_epi8(-1), words: none };
    let mut p = rec.add(HEADER_SIZE);
    let end = p.add(MESSAGE_SIZE * (count & !1));
    while p != end {
        let q = p.add(MESSAGE_SIZE);
        let (first, second) = weights(heads.see(p, q));
        sums.add(p, first);
        sums.add(q, second);
        p = q.add(MESSAGE_SIZE);
    }
    if count & 1 != 0 {
        let (weight, _) = weights(heads.see(p, p));
        sums.add(p, weight);
    }
    const SENDERS: i64 = 0xff << (8 * SENDER);
    const TARGETS: i64 = 0xff << (8 * TARGET);
    const TOKENS: i64 = 0xff << (8 * MESSAGE_PLAIN);
    let same = _mm_and_si128(heads.same, _mm_set1_epi64x(SENDERS));
    let bare = _mm_and_si128(heads.bare, _mm_set1_epi64x(TARGETS));
    let dirty = _mm_and_si128(heads.dirty, _mm_set1_epi64x(i64::MIN));
    let empty = _mm_and_si128(_mm_cmpeq_epi8(heads.tokens, none), _mm_set1_epi64x(TOKENS));
    let ends = _mm_or_si128(_mm_or_si128(heads.above, same), _mm_or_si128(bare, dirty));
    zero(_mm_or_si128(ends, _mm_or_si128(empty, heads.words)))
}

// ---- steps on a sound record

#[inline(always)]
unsafe fn block_at(rec: *mut u8, b: u8) -> *mut u8 {
    rec.add(block_offset(b.into()))
}

#[inline(always)]
unsafe fn words_at(block: *mut u8, c: u8) -> *mut u8 {
    block.add(WORDS + WORDS_SIZE * usize::from(c))
}

#[inline(always)]
unsafe fn waiting_at(block: *mut u8) -> *mut u16 {
    block.add(WAITING).cast()
}

#[inline(always)]
unsafe fn barring_at(block: *mut u8, c: u8) -> *mut u16 {
    block.add(BARRING + SET_SIZE * usize::from(c)).cast()
}

#[inline(always)]
unsafe fn copy_words(from: *const u8, to: *mut u8) {
    let (low, high) = (load(from), load(from.add(16)));
    store(to, low);
    store(to.add(16), high);
}

static NO_WORDS: Aligned<[u8; WORDS_SIZE]> = Aligned([0; WORDS_SIZE]);

struct Sending {
    c: u8,
    b: u8,
    target: u8,
    plain: u8,
    owner: u8,
    data: u8,
}

/// Takes the tokens from the component and appends the message.
#[inline(always)]
unsafe fn send(rec: *mut u8, block: *mut u8, count: u8, s: Sending) -> u64 {
    let to = rec.add(message_offset(count.into()));
    *rec.add(COUNT) = count + 1;
    *to.add(SENDER) = s.c;
    *to.add(TARGET) = s.target;
    *to.add(MESSAGE_BLOCK) = s.b;
    *to.add(MESSAGE_PLAIN) = s.plain;
    *to.add(MESSAGE_OWNER) = s.owner;
    *to.add(DATA) = s.data;
    let cell = block.add(s.c.into());
    let mark = *cell.add(DIRTY);
    let taken = mark & s.owner;
    // with the byte behind it, which is 0
    to.add(MESSAGE_DIRTY).cast::<u16>().write_unaligned(taken.into());
    let words = words_at(block, s.c).cast_const();
    copy_words(select_unpredictable(s.data != 0, words, NO_WORDS.0.as_ptr()), to.add(MESSAGE_WORDS));
    let (plain, owner) = (*cell.add(PLAIN) - s.plain, *cell.add(OWNER) - s.owner);
    *cell.add(PLAIN) = plain;
    *cell.add(OWNER) = owner;
    *cell.add(DIRTY) = mark - taken;
    *cell.add(VALID) &= u8::from(plain | owner != 0);
    DONE
}

/// Where a component is above N or 0: 3 comes before 4.
#[cold]
fn off_or_home(c: u8, n: u8, others_off: bool) -> u64 {
    if c > n || others_off {
        OFF_RACK
    } else {
        HOME
    }
}

#[inline(always)]
unsafe fn deliver(rec: *mut u8, position: u8) -> u64 {
    let count = *rec.add(COUNT);
    if position >= count {
        return NO_MESSAGE;
    }
    let from = rec.add(message_offset(position.into()));
    let (target, b) = (*from.add(TARGET), *from.add(MESSAGE_BLOCK));
    let block = block_at(rec, b);
    let cell = block.add(target.into());
    *cell.add(PLAIN) += *from.add(MESSAGE_PLAIN);
    // at home the owner is clean
    *cell.add(DIRTY) |= (*from.add(MESSAGE_DIRTY)).min(target);
    let owner = *from.add(MESSAGE_OWNER);
    *cell.add(OWNER) += owner;
    // one without data is clean and for home, which has its words
    let data = *from.add(DATA);
    *cell.add(VALID) |= data | owner;
    let words = words_at(block, target);
    copy_words(select_unpredictable(data != 0, from.add(MESSAGE_WORDS), words), words);
    // The target is loaded once more: a register that kept it up to here would be missing in the loop over a list.
    let served = (4 << 24 | u64::from(from.add(TARGET).read_volatile()) << 16 | u64::from(b)) << 32;
    *rec.add(COUNT) = count - 1;
    // The later messages move up: few of them here, many by the library.
    let later = usize::from(count - 1 - position);
    if later > 6 {
        core::ptr::copy(from.add(MESSAGE_SIZE), from, MESSAGE_SIZE * later);
    } else {
        let mut to = from;
        for _ in 0..later {
            let next = to.add(MESSAGE_SIZE);
            let head = next.cast::<u64>().read_unaligned();
            let (low, high) = (load(next.add(MESSAGE_WORDS)), load(next.add(MESSAGE_WORDS + 16)));
            to.cast::<u64>().write_unaligned(head);
            store(to.add(MESSAGE_WORDS), low);
            store(to.add(MESSAGE_WORDS + 16), high);
            to = next;
        }
    }
    served
}

/// The reply to the record at the front of `left` bytes, and its length. With `WHOLE` it must fill them.
#[inline(always)]
unsafe fn one<const WHOLE: bool>(rec: *mut u8, p: *const u8, left: usize) -> (u64, usize) {
    let room = |size: usize| if WHOLE { left == size } else { left >= size };
    if WHOLE && left == 0 {
        return (TORN, 0);
    }
    // Loaded each by itself: the compiler would take values out of the vectors that the form was compared in, by way of memory.
    let value = |at: usize| p.add(at).read_volatile();
    match value(0) {
        0x10 if room(LOAD_SIZE) && LOAD.fits::<LOAD_SIZE>(p) => {
            let (c, b, w) = (value(6), value(10), value(14));
            if c > *rec.add(BOARDS) || b >= *rec.add(BLOCKS) || w > 7 {
                return (OFF_RACK, LOAD_SIZE);
            }
            let block = block_at(rec, b);
            let cell = block.add(c.into());
            // valid only where a token is held
            if *cell.add(VALID) == 0 {
                return (if *cell.add(PLAIN) == 0 { NO_TOKEN } else { NO_DATA }, LOAD_SIZE);
            }
            let word = words_at(block, c).cast::<u32>().add(w.into()).read_unaligned().swap_bytes();
            (2 << 56 | u64::from(word), LOAD_SIZE)
        }
        0x11 if room(STORE_SIZE) && STORE.fits::<STORE_SIZE>(p) => {
            let (c, b, w) = (value(6), value(10), value(14));
            let n = *rec.add(BOARDS);
            if c.wrapping_sub(1) >= n || b >= *rec.add(BLOCKS) || w > 7 {
                return (off_or_home(c, n, b >= *rec.add(BLOCKS) || w > 7), STORE_SIZE);
            }
            let block = block_at(rec, b);
            let cell = block.add(c.into());
            if *cell.add(PLAIN) + *cell.add(OWNER) < *rec.add(TOKENS) {
                return (SHORT, STORE_SIZE);
            }
            *cell.add(DIRTY) = 1;
            let word = p.add(18).cast::<u32>().read_unaligned();
            words_at(block, c).cast::<u32>().add(w.into()).write_unaligned(word);
            (DONE, STORE_SIZE)
        }
        0x12 if room(SEND_SIZE) && SEND.fits::<SEND_SIZE>(p) => {
            let s = Sending { c: value(6), b: value(10), target: value(14), plain: value(18), owner: value(22), data: value(26) };
            let n = *rec.add(BOARDS);
            if s.c > n || s.b >= *rec.add(BLOCKS) || s.target > n {
                return (OFF_RACK, SEND_SIZE);
            }
            if s.c == s.target {
                return (ITSELF, SEND_SIZE);
            }
            let block = block_at(rec, s.b);
            if waiting_at(block).read_unaligned() != 0 {
                return (CLAIMED, SEND_SIZE);
            }
            if s.plain | s.owner == 0 {
                return (EMPTY, SEND_SIZE);
            }
            let cell = block.add(s.c.into());
            if s.plain > *cell.add(PLAIN) || s.owner > *cell.add(OWNER) {
                return (NOT_HELD, SEND_SIZE);
            }
            if s.owner > s.data && s.target | *cell.add(DIRTY) != 0 {
                return (BARE_OWNER, SEND_SIZE);
            }
            if s.data > *cell.add(VALID) {
                return (NO_DATA, SEND_SIZE);
            }
            let count = *rec.add(COUNT);
            if usize::from(count) == MESH_ROOM {
                return (MESH_FULL, SEND_SIZE);
            }
            (send(rec, block, count, s), SEND_SIZE)
        }
        0x13 if room(DELIVER_SIZE)
            && p.cast::<u32>().read_unaligned() == u32::from_le_bytes([0x13, 0, 4, 9])
            && p.add(4).cast::<u16>().read_unaligned() == u16::from_le_bytes([0, 1]) =>
        {
            (deliver(rec, value(6)), DELIVER_SIZE)
        }
        0x14 if room(CLAIM_SIZE) && RAISE.fits::<CLAIM_SIZE>(p) => {
            let (c, b) = (value(6), value(10));
            let n = *rec.add(BOARDS);
            if c.wrapping_sub(1) >= n || b >= *rec.add(BLOCKS) {
                return (off_or_home(c, n, b >= *rec.add(BLOCKS)), CLAIM_SIZE);
            }
            let block = block_at(rec, b);
            let waiting = waiting_at(block).read_unaligned();
            if waiting & bit(c) != 0 {
                return (WAITS, CLAIM_SIZE);
            }
            if barring_at(block, c).read_unaligned() != 0 {
                return (BARRED, CLAIM_SIZE);
            }
            waiting_at(block).write_unaligned(waiting | bit(c));
            (DONE, CLAIM_SIZE)
        }
        0x15 if room(CLAIM_SIZE) && LOWER.fits::<CLAIM_SIZE>(p) => {
            let (c, b) = (value(6), value(10));
            let n = *rec.add(BOARDS);
            if c.wrapping_sub(1) >= n || b >= *rec.add(BLOCKS) {
                return (off_or_home(c, n, b >= *rec.add(BLOCKS)), CLAIM_SIZE);
            }
            let block = block_at(rec, b);
            let waiting = waiting_at(block).read_unaligned();
            if waiting & bit(c) == 0 {
                return (NOT_WAITING, CLAIM_SIZE);
            }
            let remain = waiting & !bit(c);
            waiting_at(block).write_unaligned(remain);
            let others = _mm_set1_epi16(!bit(c) as i16);
            let sets = block.add(BARRING);
            store(sets, _mm_and_si128(load(sets), others));
            store(sets.add(16), _mm_and_si128(load(sets.add(16)), others));
            barring_at(block, c).write_unaligned(remain);
            (DONE, CLAIM_SIZE)
        }
        0x16 if room(CLAIM_SIZE) && FORWARD.fits::<CLAIM_SIZE>(p) => {
            let (c, b) = (value(6), value(10));
            if c > *rec.add(BOARDS) || b >= *rec.add(BLOCKS) {
                return (OFF_RACK, CLAIM_SIZE);
            }
            let block = block_at(rec, b);
            let waiting = waiting_at(block).read_unaligned().swap_bytes();
            if waiting == 0 {
                return (UNCLAIMED, CLAIM_SIZE);
            }
            let target = waiting.trailing_zeros() as u8;
            if target == c {
                return (ITSELF, CLAIM_SIZE);
            }
            let cell = block.add(c.into());
            let (plain, owner, data) = (*cell.add(PLAIN), *cell.add(OWNER), *cell.add(VALID));
            if plain | owner == 0 {
                return (NO_TOKEN, CLAIM_SIZE);
            }
            let count = *rec.add(COUNT);
            if usize::from(count) == MESH_ROOM {
                return (MESH_FULL, CLAIM_SIZE);
            }
            (send(rec, block, count, Sending { c, b, target, plain, owner, data }), CLAIM_SIZE)
        }
        _ => (TORN, if WHOLE { left } else { cut(p, left) }),
    }
}

/// Whether the bytes are a step record: asked only where the record is not sound.
#[cold]
unsafe fn torn(p: *const u8, size: usize) -> bool {
    if size == 0 {
        return true;
    }
    !match *p {
        0x10 => size == LOAD_SIZE && LOAD.fits::<LOAD_SIZE>(p),
        0x11 => size == STORE_SIZE && STORE.fits::<STORE_SIZE>(p),
        0x12 => size == SEND_SIZE && SEND.fits::<SEND_SIZE>(p),
        0x13 => size == DELIVER_SIZE && std::slice::from_raw_parts(p, 6) == [0x13, 0, 4, 9, 0, 1],
        0x14 => size == CLAIM_SIZE && RAISE.fits::<CLAIM_SIZE>(p),
        0x15 => size == CLAIM_SIZE && LOWER.fits::<CLAIM_SIZE>(p),
        0x16 => size == CLAIM_SIZE && FORWARD.fits::<CLAIM_SIZE>(p),
        _ => false,
    }
}

// ---- the calls

// SAFETY, for all of them: a slice is as long as it says; what is read and written of a record lies within the length that was asked first, and
// offsets into it are made of figures that soundness or the refusal table has bounded.

pub fn record_len(blocks: u32) -> u64 {
    if (1..=32).contains(&blocks) {
        length(blocks as usize) as u64
    } else {
        SIZE
    }
}

pub fn open(rec: &mut [u8], boards: u32, blocks: u32, tokens: u32) -> u64 {
    if !(1..=15).contains(&boards) || !(1..=32).contains(&blocks) || tokens < boards || tokens > 64 {
        return SIZE;
    }
    if rec.len() < length(blocks as usize) {
        return SHORT_BUFFER;
    }
    let rec = rec.as_mut_ptr();
    unsafe {
        *rec.add(BOARDS) = boards as u8;
        *rec.add(BLOCKS) = blocks as u8;
        *rec.add(TOKENS) = tokens as u8;
        *rec.add(COUNT) = 0;
        rec.add(FORMAT).cast::<[u8; 4]>().write_unaligned(FORMAT_BYTES);
        for b in 0..blocks as u8 {
            let block = block_at(rec, b);
            let none = _mm_setzero_si128();
            for at in [PLAIN, OWNER, VALID, DIRTY, BARRING, BARRING + 16] {
                store(block.add(at), none);
            }
            *block.add(PLAIN) = tokens as u8 - 1;
            *block.add(OWNER) = 1;
            *block.add(VALID) = 1;
            waiting_at(block).write_unaligned(0);
            block.add(WORDS).write_bytes(0, WORDS_SIZE * (boards as usize + 1));
        }
    }
    DONE
}

#[inline(never)]
pub fn step(rec: &mut [u8], bytes: &[u8]) -> u64 {
    let (p, size) = (bytes.as_ptr(), bytes.len());
    unsafe {
        if !sound(rec.as_ptr(), rec.len()) {
            return if torn(p, size) { TORN } else { UNSOUND };
        }
        one::<true>(rec.as_mut_ptr(), p, size).0
    }
}

#[inline(never)]
pub fn run(rec: &mut [u8], list: &[u8], at: &mut usize, replies: &mut [u64]) -> usize {
    let Some(left) = list.get(*at..) else {
        return 0;
    };
    unsafe {
        let (made, size) =
            if sound_once(rec.as_ptr(), rec.len()) { steps(rec.as_mut_ptr(), left, replies) } else { no_steps(left, replies) };
        *at += size;
        made
    }
}

/// Apart from the steps of a list, which then have the registers for themselves.
#[inline(never)]
unsafe fn sound_once(rec: *const u8, len: usize) -> bool {
    sound(rec, len)
}

/// How many replies were made on a sound record, and how many bytes of the list they are for.
#[inline(never)]
unsafe fn steps(rec: *mut u8, list: &[u8], replies: &mut [u64]) -> (usize, usize) {
    let (mut p, mut left) = (list.as_ptr(), list.len());
    let mut place = replies.as_mut_ptr();
    let end = place.add(replies.len());
    while place != end && left != 0 {
        let (reply, size) = one::<false>(rec, p, left);
        *place = reply;
        place = place.add(1);
        p = p.add(size);
        left -= size;
    }
    (place.offset_from_unsigned(replies.as_ptr()), list.len() - left)
}

/// The same where the record is not sound.
#[cold]
unsafe fn no_steps(list: &[u8], replies: &mut [u64]) -> (usize, usize) {
    let (mut size, mut made) = (0, 0);
    while made < replies.len() && size < list.len() {
        let bytes = &list[size..];
        let first = cut(bytes.as_ptr(), bytes.len());
        replies[made] = if torn(bytes.as_ptr(), first) { TORN } else { UNSOUND };
        size += first;
        made += 1;
    }
    (made, size)
}

pub fn letter(rec: &[u8], component: u32, block: u32) -> u64 {
    unsafe {
        if !sound(rec.as_ptr(), rec.len()) {
            return UNSOUND;
        }
        let rec = rec.as_ptr();
        if component > u32::from(*rec.add(BOARDS)) || block >= u32::from(*rec.add(BLOCKS)) {
            return OFF_RACK;
        }
        if component == 0 {
            return HOME;
        }
        let cell = rec.add(block_offset(block as usize) + component as usize);
        let (plain, owner, valid, dirty) = (*cell.add(PLAIN), *cell.add(OWNER), *cell.add(VALID), *cell.add(DIRTY));
        // Which letter it is cannot be foretold, so no branch.
        let whole = if dirty == 1 { b'M' } else { b'E' };
        let shared = if valid == 1 { b'S' } else { b'I' };
        let fewer = select_unpredictable(owner == 1, b'O', shared);
        let letter = select_unpredictable(plain + owner == *rec.add(TOKENS), whole, fewer);
        3 << 56 | u64::from(letter)
    }
}
