//! A second count of damaged records that are sound, written from document 01's "Sound means", with No. 2 of document 02, and
//! docs/RECORD.md. It prints what the program of crate `test_damage` prints; the two are compared.

// The layout of docs/RECORD.md: where messages and blocks start, and the figures within them.
const FORMAT: usize = 28;
const FORMAT_BYTES: &[u8] = b"HYL\x01";
const MESSAGES: usize = 32;
const MESSAGE_SIZE: usize = 40;
const MESSAGE_WORDS: usize = 8;
const BLOCKS: usize = 2592;
const BLOCK_SIZE: usize = 632;
const OWNERS: usize = 16;
const VALID_MARKS: usize = 32;
const DIRTY_MARKS: usize = 48;
const BARRING_SETS: usize = 80;
const WAITING_SET: usize = 112;

/// A block has places for so many components.
const PLACES: usize = 16;

/// A cell and a message as plain values.
struct Cell {
    plain: u32,
    owner: u8,
    valid: u8,
    dirty: u8,
}

struct Message {
    sender: u8,
    target: u8,
    block: u8,
    plain: u32,
    owner: u8,
    data: u8,
    dirty: u8,
    spare: u8,
    clear: bool,
}

fn number(bytes: &[u8]) -> u32 {
    bytes.iter().fold(0, |sum, &b| sum << 8 | u32::from(b))
}

fn cell(rec: &[u8], block: usize, component: usize) -> Cell {
    let at = BLOCKS + BLOCK_SIZE * block + component;
    Cell { plain: rec[at].into(), owner: rec[at + OWNERS], valid: rec[at + VALID_MARKS], dirty: rec[at + DIRTY_MARKS] }
}

fn message(rec: &[u8], i: usize) -> Message {
    let m = &rec[MESSAGES + MESSAGE_SIZE * i..][..MESSAGE_SIZE];
    Message {
        sender: m[0],
        target: m[1],
        block: m[2],
        plain: m[3].into(),
        owner: m[4],
        data: m[5],
        dirty: m[6],
        spare: m[7],
        clear: m[MESSAGE_WORDS..].chunks(4).all(|word| number(word) == 0),
    }
}

/// Whether two bytes are an owner, there or not, with its mark: none where it is not there.
fn owner_and_mark(owner: u8, dirty: u8) -> bool {
    matches!((owner, dirty), (0, 0) | (1, 0) | (1, 1))
}

fn waiting_set(rec: &[u8], block: usize) -> u32 {
    number(&rec[BLOCKS + BLOCK_SIZE * block + WAITING_SET..][..2])
}

fn barring_set(rec: &[u8], block: usize, board: usize) -> u32 {
    number(&rec[BLOCKS + BLOCK_SIZE * block + BARRING_SETS + 2 * board..][..2])
}

/// "Sound means", sentence by sentence.
fn sound(rec: &[u8]) -> bool {
    if rec.len() < MESSAGES {
        return false;
    }
    let (n, b, t, m) = (usize::from(rec[0]), usize::from(rec[1]), u32::from(rec[2]), usize::from(rec[3]));
    let sizes = (1..=15).contains(&n) && (1..=32).contains(&b) && n as u32 <= t && t <= 64;
    if !sizes || m > 64 || rec.len() < BLOCKS + BLOCK_SIZE * b || &rec[FORMAT..MESSAGES] != FORMAT_BYTES {
        return false;
    }
    let messages: Vec<Message> = (0..m).map(|i| message(rec, i)).collect();
    let known = messages.iter().all(|x| {
        owner_and_mark(x.owner, x.dirty)
            && x.data <= 1
            && x.spare == 0
            && (x.data == 1 || x.clear)
            && usize::from(x.sender) <= n
            && usize::from(x.target) <= n
            && x.sender != x.target
            && usize::from(x.block) < b
            && x.plain + u32::from(x.owner) >= 1
            && (x.owner == 0 || x.data == 1 || x.dirty == 0 && x.target == 0)
    });
    known
        && (0..b).all(|k| {
            let cells: Vec<Cell> = (0..=n).map(|c| cell(rec, k, c)).collect();
            let flying: Vec<&Message> = messages.iter().filter(|x| usize::from(x.block) == k).collect();
            let plain: u32 = cells.iter().map(|x| x.plain).sum::<u32>() + flying.iter().map(|x| x.plain).sum::<u32>();
            let owners: u32 =
                cells.iter().map(|x| u32::from(x.owner)).sum::<u32>() + flying.iter().map(|x| u32::from(x.owner)).sum::<u32>();
            let marks = cells.iter().all(|x| {
                owner_and_mark(x.owner, x.dirty)
                    && x.valid <= 1
                    && (x.valid == 0 || x.plain + u32::from(x.owner) >= 1)
                    && (x.owner == 0 || x.valid == 1)
            });
            let boards = |s: u32| (0..16).all(|i| s >> i & 1 == 0 || (1..=n).contains(&i)) && s < 1 << 16;
            let waiting = waiting_set(rec, k);
            let sets = boards(waiting)
                && (1..=n).all(|i| {
                    let barring = barring_set(rec, k, i);
                    boards(barring) && barring & !waiting == 0 && (waiting >> i & 1 == 0 || barring == 0)
                });
            // The layout has 0 where a component is above N, and where home would have a barring set.
            let spare = (n + 1..PLACES).all(|c| {
                let x = cell(rec, k, c);
                x.plain == 0 && x.owner == 0 && x.valid == 0 && x.dirty == 0 && barring_set(rec, k, c) == 0
            }) && barring_set(rec, k, 0) == 0;
            plain + owners == t && owners == 1 && marks && sets && spare
        })
}

/// How many records that differ from this one in one byte are sound.
fn damaged(rec: &mut [u8]) -> u64 {
    let mut count = 0;
    for at in 0..rec.len() {
        let old = rec[at];
        for v in 0..=255 {
            if v != old {
                rec[at] = v;
                count += u64::from(sound(rec));
            }
        }
        rec[at] = old;
    }
    count
}

fn fresh(n: u8, b: u8, t: u8) -> Vec<u8> {
    let mut rec = vec![0; BLOCKS + BLOCK_SIZE * usize::from(b)];
    rec[..4].copy_from_slice(&[n, b, t, 0]);
    rec[FORMAT..MESSAGES].copy_from_slice(FORMAT_BYTES);
    for k in 0..usize::from(b) {
        put_cell(&mut rec, k, 0, [t - 1, 1, 1]);
    }
    rec
}

/// Sets the plain count, the owner and the valid mark of a component.
fn put_cell(rec: &mut [u8], block: usize, component: usize, figures: [u8; 3]) {
    let at = BLOCKS + BLOCK_SIZE * block + component;
    for (lane, figure) in [0, OWNERS, VALID_MARKS].iter().zip(figures) {
        rec[at + lane] = figure;
    }
}

fn main() {
    for (n, b, t) in [(1, 1, 1), (2, 1, 3), (3, 2, 5), (15, 32, 64)] {
        println!("open {n} {b} {t}: {}", if sound(&fresh(n, b, t)) { "sound" } else { "unsound" });
    }
    let mut rec = fresh(2, 1, 3);
    println!("fresh: {}", damaged(&mut rec));
    // Board 1 holds a plain token with no data, one is in flight without data, the owner with data; board 2 waits and bars board 1.
    rec[3] = 2;
    rec[MESSAGES..][..6].copy_from_slice(&[0, 1, 0, 1, 0, 0]);
    rec[MESSAGES + MESSAGE_SIZE..][..6].copy_from_slice(&[0, 2, 0, 0, 1, 1]);
    rec[MESSAGES + MESSAGE_SIZE + MESSAGE_WORDS + 3] = 7;
    put_cell(&mut rec, 0, 0, [0, 0, 0]);
    put_cell(&mut rec, 0, 1, [1, 0, 0]);
    rec[BLOCKS + WAITING_SET + 1] = 1 << 2;
    rec[BLOCKS + BARRING_SETS + 2 + 1] = 1 << 2;
    println!("busy: {}", damaged(&mut rec));
    // The owner on its way home instead: clean and without data, then dirty and with data.
    let message = MESSAGES + MESSAGE_SIZE;
    rec[message..][..6].copy_from_slice(&[1, 0, 0, 0, 1, 0]);
    rec[message + MESSAGE_WORDS + 3] = 0;
    println!("bare: {}", damaged(&mut rec));
    (rec[message + 5], rec[message + 6], rec[message + MESSAGE_WORDS + 3]) = (1, 1, 7);
    println!("dirty: {}", damaged(&mut rec));
}
