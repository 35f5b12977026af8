//! Deliveries to the byte, and owners that go home bare. What each step changes is written down here
//! by the rules and docs/RECORD.md; after every step the whole lent buffer is compared, also behind
//! the record, and the state letters with what they are by the bytes.

use hyaloneth::Step::*;
use hyaloneth::{Cell, Letter, Owner, Record, Refusal, Reply, Step, View};

/// The bytes of a message in front of its words, and those of its words.
const HEADER: usize = 8;
const WORDS: usize = 32;

/// The words of block 0 after the stores.
const STORED: [u32; 8] = [0x2a, 0, 0, 0, 0, 0, 0, 0x0102_0304];

/// Offsets in the record, by docs/RECORD.md.
const COUNT_OFFSET: usize = 3;
const FORMAT_OFFSET: usize = 28;

fn message_offset(position: usize) -> usize {
    32 + 40 * position
}

fn block_offset(block: usize) -> usize {
    2592 + 632 * block
}

fn plain_offset(component: usize, of: usize) -> usize {
    block_offset(of) + component
}

fn owner_offset(component: usize, of: usize) -> usize {
    block_offset(of) + 16 + component
}

fn valid_offset(component: usize, of: usize) -> usize {
    block_offset(of) + 32 + component
}

fn dirty_offset(component: usize, of: usize) -> usize {
    block_offset(of) + 48 + component
}

fn words_offset(component: usize, of: usize) -> usize {
    block_offset(of) + 120 + 32 * component
}

/// A lent buffer, and the bytes that it must have.
struct Lent {
    given: Vec<u8>,
    want: Vec<u8>,
    /// The steps so far, and what each gave.
    list: Vec<u8>,
    answers: Vec<Result<Reply, Refusal>>,
}

impl Lent {
    /// N = 2, T = 3, in a buffer with bytes of a pattern; 100 of them are behind the record.
    fn open(blocks: usize) -> Lent {
        let pattern: Vec<u8> = (0..block_offset(blocks) + 100).map(|i| (i % 251) as u8).collect();
        let mut lent =
            Lent { given: pattern.clone(), want: pattern, list: Vec::new(), answers: Vec::new() };
        Record::open(&mut lent.given, 2, blocks as u32, 3).unwrap();
        lent.put(0, &[2, blocks as u8, 3, 0]);
        lent.put(FORMAT_OFFSET, &[b'H', b'Y', b'L', Record::FORMAT]);
        for of in 0..blocks {
            // the four lanes; the barring sets and the waiting set; the words of home and boards
            lent.put(block_offset(of), &[0; 64]);
            lent.put(block_offset(of) + 80, &[0; 34]);
            lent.put(block_offset(of) + 120, &[0; 3 * WORDS]);
            for (at, byte) in
                [(plain_offset(0, of), 2), (owner_offset(0, of), 1), (valid_offset(0, of), 1)]
            {
                lent.put(at, &[byte]);
            }
        }
        lent.compare("the opening");
        lent
    }

    fn put(&mut self, at: usize, bytes: &[u8]) {
        self.want[at..at + bytes.len()].copy_from_slice(bytes);
    }

    /// What a component must have of block 0 after the next step: plain, owner, valid, dirty.
    fn put_tokens(&mut self, component: usize, [plain, owner, valid, dirty]: [u8; 4]) {
        self.put(plain_offset(component, 0), &[plain]);
        self.put(owner_offset(component, 0), &[owner]);
        self.put(valid_offset(component, 0), &[valid]);
        self.put(dirty_offset(component, 0), &[dirty]);
    }

    /// The step is accepted and changes these bytes of the buffer, and no other. A deliver names
    /// the target and the block that stand in its message.
    fn step(&mut self, step: Step, changes: &[(usize, &[u8])]) {
        let reply = match step {
            Deliver { position } => {
                let header = &self.want[message_offset(position as usize)..][..HEADER];
                Reply::Served { component: header[1].into(), block: header[2].into() }
            }
            _ => Reply::Done,
        };
        for (at, bytes) in changes {
            self.put(*at, bytes);
        }
        self.gives(step, Ok(reply));
    }

    /// The step gives this, and the buffer has the bytes that it must have.
    fn gives(&mut self, step: Step, answer: Result<Reply, Refusal>) {
        assert_eq!(Record::over(&mut self.given).step(&step), answer, "{step}");
        self.list.extend(step.to_bytes().unwrap());
        self.answers.push(answer);
        self.compare(&step.to_string());
    }

    /// The load gives this word, or is refused.
    fn loads(&mut self, component: u32, word: u32, answer: Result<u32, Refusal>) {
        self.gives(Load { component, block: 0, word }, answer.map(Reply::Word));
    }

    /// The same steps as one list give the same answers and bytes.
    fn runs_alike(&self) {
        let mut whole = Lent::open(self.want[1].into());
        let mut answers = Vec::new();
        Record::over(&mut whole.given).run(&self.list, |answer| answers.push(answer));
        assert_eq!(answers, self.answers);
        assert_eq!(whole.given, self.want);
    }

    fn compare(&self, after: &str) {
        let differ = (0..self.want.len()).find(|&at| self.given[at] != self.want[at]);
        assert_eq!(differ, None, "a byte that differs after {after}");
        let view = View::of(&self.given).unwrap();
        for (component, of) in (0..usize::from(self.want[1])).flat_map(|of| [(1, of), (2, of)]) {
            let letter = view.letter(component as u32, of as u32);
            assert_eq!(letter, Some(self.letter(component, of)), "a letter after {after}");
        }
    }

    /// The letter by the bytes that the buffer must have.
    fn letter(&self, component: usize, of: usize) -> Letter {
        let [plain, owner, valid, dirty] = [plain_offset, owner_offset, valid_offset, dirty_offset]
            .map(|offset| self.want[offset(component, of)]);
        match (plain + owner == self.want[2], owner, dirty, valid) {
            (true, 1, 1, 1) => Letter::Modified,
            (true, 1, 0, 1) => Letter::Exclusive,
            (false, 1, _, 1) => Letter::Owned,
            (false, 0, 0, 1) => Letter::Shared,
            (false, 0, 0, 0) => Letter::Invalid,
            figures => panic!("not sound: {figures:?}"),
        }
    }

    fn cell(&mut self, component: u32, block: u32) -> Cell {
        Record::over(&mut self.given).view().unwrap().cell(component, block).unwrap()
    }
}

fn send(component: u32, block: u32, target: u32, plain: u32, owner: bool, data: bool) -> Step {
    Send { component, block, target, plain, owner, data }
}

fn store(word: u32) -> Step {
    Store { component: 1, block: 0, word, value: STORED[word as usize] }
}

/// Eight words as bytes, the high byte of each first.
fn word_bytes(words: [u32; 8]) -> Vec<u8> {
    words.into_iter().flat_map(u32::to_be_bytes).collect()
}

fn message_bytes(header: [u8; HEADER], words: [u32; 8]) -> Vec<u8> {
    header.into_iter().chain(word_bytes(words)).collect()
}

const OLDEST: Step = Deliver { position: 0 };

/// A fresh block 0 goes from home to board 1, all of it: the owner is clean, the words are 0.
fn all_to_board_1(lent: &mut Lent) {
    let all = message_bytes([0, 1, 0, 2, 1, 1, 0, 0], [0; 8]);
    lent.put_tokens(0, [0, 0, 0, 0]);
    lent.step(send(0, 0, 1, 2, true, true), &[(message_offset(0), &all), (COUNT_OFFSET, &[1])]);
    lent.put_tokens(1, [2, 1, 1, 0]);
    lent.step(OLDEST, &[(COUNT_OFFSET, &[0])]);
}

/// Board 1 has stored two words of block 0 and sends a token with them to board 2; behind that
/// message goes one of block 1.
fn two_in_flight() -> Lent {
    let mut lent = Lent::open(2);
    all_to_board_1(&mut lent);
    lent.step(
        store(0),
        &[(words_offset(1, 0), &[0x00, 0x00, 0x00, 0x2a]), (dirty_offset(1, 0), &[1])],
    );
    lent.step(store(7), &[(words_offset(1, 0) + 28, &[0x01, 0x02, 0x03, 0x04])]);
    let stored = message_bytes([1, 2, 0, 1, 0, 1, 0, 0], STORED);
    lent.step(
        send(1, 0, 2, 1, false, true),
        &[(plain_offset(1, 0), &[1]), (message_offset(0), &stored), (COUNT_OFFSET, &[1])],
    );
    let other = message_bytes([0, 2, 1, 1, 0, 1, 0, 0], [0; 8]);
    lent.step(
        send(0, 1, 2, 1, false, true),
        &[(plain_offset(0, 1), &[1]), (message_offset(1), &other), (COUNT_OFFSET, &[2])],
    );
    lent
}

/// The oldest message, which has the stored words, is delivered to board 2.
fn delivered() -> Lent {
    let mut lent = two_in_flight();
    let stored = word_bytes(STORED);
    let other = message_bytes([0, 2, 1, 1, 0, 1, 0, 0], [0; 8]);
    // The other message moves up. Its old bytes stay, past the count.
    let changes: [(usize, &[u8]); 5] = [
        (plain_offset(2, 0), &[1]),
        (valid_offset(2, 0), &[1]),
        (words_offset(2, 0), &stored),
        (message_offset(0), &other),
        (COUNT_OFFSET, &[1]),
    ];
    lent.step(OLDEST, &changes);
    lent
}

#[test]
fn the_words_go_from_the_message_to_the_target() {
    let mut lent = delivered();
    assert_eq!(lent.given[COUNT_OFFSET], 1);
    let words = STORED;
    assert_eq!(lent.cell(2, 0), Cell { plain: 1, owner: Owner::Away, valid: true, words });
    assert_eq!(lent.cell(1, 0), Cell { plain: 1, owner: Owner::Dirty, valid: true, words });
    for position in [0, 1] {
        let (header, words) =
            lent.given[message_offset(position)..][..HEADER + WORDS].split_at(HEADER);
        assert_eq!(header, [0x00, 0x02, 0x01, 0x01, 0x00, 0x01, 0x00, 0x00]);
        assert_eq!(words, [0; WORDS]);
    }
}

#[test]
fn without_data_the_words_stay() {
    let mut lent = delivered();
    lent.step(
        OLDEST,
        &[(plain_offset(2, 1), &[1]), (valid_offset(2, 1), &[1]), (COUNT_OFFSET, &[0])],
    );
    // Home gets a token of block 0 without data: it has other words than board 2, not valid ones.
    let bare = message_bytes([1, 0, 0, 1, 0, 0, 0, 0], [0; 8]);
    lent.step(
        send(1, 0, 0, 1, false, false),
        &[(plain_offset(1, 0), &[0]), (message_offset(0), &bare), (COUNT_OFFSET, &[1])],
    );
    lent.step(OLDEST, &[(plain_offset(0, 0), &[1]), (COUNT_OFFSET, &[0])]);
    let words = [0; 8];
    assert_eq!(lent.cell(0, 0), Cell { plain: 1, owner: Owner::Away, valid: false, words });
    // The token goes on to board 2, which is valid.
    let bare = message_bytes([0, 2, 0, 1, 0, 0, 0, 0], [0; 8]);
    lent.step(
        send(0, 0, 2, 1, false, false),
        &[(plain_offset(0, 0), &[0]), (message_offset(0), &bare), (COUNT_OFFSET, &[1])],
    );
    lent.step(OLDEST, &[(plain_offset(2, 0), &[2]), (COUNT_OFFSET, &[0])]);
    let words = STORED;
    assert_eq!(lent.cell(2, 0), Cell { plain: 2, owner: Owner::Away, valid: true, words });
    for (word, value) in (0..).zip(STORED) {
        lent.loads(2, word, Ok(value));
    }
}

#[test]
fn a_run_changes_the_same_bytes() {
    let lent = delivered();
    assert_eq!(lent.answers.len(), 7);
    lent.runs_alike();
}

/// The words of block 0 after a store of 7 to word 0.
const SEVEN: [u32; 8] = [7, 0, 0, 0, 0, 0, 0, 0];
const STORE_SEVEN: Step = Store { component: 1, block: 0, word: 0, value: 7 };

/// Board 1 stores and gives the block back with its words; board 2 only reads and gives it back bare.
/// The trace clean_owner has the same steps.
fn clean_owner() -> Lent {
    let mut lent = Lent::open(1);
    all_to_board_1(&mut lent);
    lent.put_tokens(1, [2, 1, 1, 1]);
    lent.step(STORE_SEVEN, &[(words_offset(1, 0), &[0x00, 0x00, 0x00, 0x07])]);
    lent.gives(send(1, 0, 0, 2, true, false), Err(Refusal::BareOwner));

    // The mark goes with the owner, and is clean at home.
    let (words, dirty) = (word_bytes(SEVEN), message_bytes([1, 0, 0, 2, 1, 1, 1, 0], SEVEN));
    lent.put_tokens(1, [0, 0, 0, 0]);
    lent.step(send(1, 0, 0, 2, true, true), &[(message_offset(0), &dirty), (COUNT_OFFSET, &[1])]);
    lent.put_tokens(0, [2, 1, 1, 0]);
    lent.step(OLDEST, &[(words_offset(0, 0), &words), (COUNT_OFFSET, &[0])]);

    let clean = message_bytes([0, 2, 0, 2, 1, 1, 0, 0], SEVEN);
    lent.put_tokens(0, [0, 0, 0, 0]);
    lent.step(send(0, 0, 2, 2, true, true), &[(message_offset(0), &clean), (COUNT_OFFSET, &[1])]);
    lent.put_tokens(2, [2, 1, 1, 0]);
    lent.step(OLDEST, &[(words_offset(2, 0), &words), (COUNT_OFFSET, &[0])]);
    lent.loads(2, 0, Ok(7));
    lent.gives(send(2, 0, 1, 2, true, false), Err(Refusal::BareOwner));

    // The message has no words. Home keeps those that it has, and they are valid.
    let bare = message_bytes([2, 0, 0, 2, 1, 0, 0, 0], [0; 8]);
    lent.put_tokens(2, [0, 0, 0, 0]);
    lent.step(send(2, 0, 0, 2, true, false), &[(message_offset(0), &bare), (COUNT_OFFSET, &[1])]);
    lent.loads(2, 0, Err(Refusal::NoToken));
    lent.put_tokens(0, [2, 1, 1, 0]);
    lent.step(OLDEST, &[(COUNT_OFFSET, &[0])]);
    lent.loads(0, 0, Ok(7));

    let shared = message_bytes([0, 1, 0, 1, 0, 1, 0, 0], SEVEN);
    lent.put_tokens(0, [1, 1, 1, 0]);
    lent.step(send(0, 0, 1, 1, false, true), &[(message_offset(0), &shared), (COUNT_OFFSET, &[1])]);
    lent.put_tokens(1, [1, 0, 1, 0]);
    lent.step(OLDEST, &[(COUNT_OFFSET, &[0])]);
    lent.loads(1, 0, Ok(7));
    lent
}

#[test]
fn a_clean_owner_goes_home_bare() {
    let mut lent = clean_owner();
    let words = SEVEN;
    assert_eq!(lent.cell(0, 0), Cell { plain: 1, owner: Owner::Clean, valid: true, words });
    assert_eq!(lent.answers.len(), 17);
    lent.runs_alike();
}

/// Board 1, which may have stored, forwards the block to board 2 by its claim. The mark goes with it.
/// The trace bare_with_claims has the same steps.
fn claimed(stored: bool) -> Lent {
    let mut lent = Lent::open(1);
    let (dirty, words) = if stored { (1, SEVEN) } else { (0, [0; 8]) };
    all_to_board_1(&mut lent);
    if stored {
        lent.put_tokens(1, [2, 1, 1, 1]);
        lent.step(STORE_SEVEN, &[(words_offset(1, 0), &word_bytes(words))]);
    }
    let waiting = block_offset(0) + 112;
    lent.step(Raise { component: 2, block: 0 }, &[(waiting, &[0x00, 0x04])]);
    lent.gives(send(1, 0, 0, 2, true, false), Err(Refusal::Claimed));
    let forwarded = message_bytes([1, 2, 0, 2, 1, 1, dirty, 0], words);
    lent.put_tokens(1, [0, 0, 0, 0]);
    lent.step(
        Forward { component: 1, block: 0 },
        &[(message_offset(0), &forwarded), (COUNT_OFFSET, &[1])],
    );
    lent.put_tokens(2, [2, 1, 1, dirty]);
    lent.step(OLDEST, &[(words_offset(2, 0), &word_bytes(words)), (COUNT_OFFSET, &[0])]);
    lent.step(Lower { component: 2, block: 0 }, &[(waiting, &[0x00, 0x00])]);
    lent
}

#[test]
fn a_forward_takes_the_mark_along() {
    let mut lent = claimed(false);
    let bare = message_bytes([2, 0, 0, 2, 1, 0, 0, 0], [0; 8]);
    lent.put_tokens(2, [0, 0, 0, 0]);
    lent.step(send(2, 0, 0, 2, true, false), &[(message_offset(0), &bare), (COUNT_OFFSET, &[1])]);
    lent.put_tokens(0, [2, 1, 1, 0]);
    lent.step(OLDEST, &[(COUNT_OFFSET, &[0])]);
    lent.loads(0, 0, Ok(0));
    lent.runs_alike();

    let mut lent = claimed(true);
    lent.gives(send(2, 0, 0, 2, true, false), Err(Refusal::BareOwner));
    lent.runs_alike();
}

#[test]
fn a_bare_owner_may_leave_plain_tokens_behind() {
    let mut lent = Lent::open(1);
    all_to_board_1(&mut lent);
    let bare = message_bytes([1, 0, 0, 1, 1, 0, 0, 0], [0; 8]);
    lent.put_tokens(1, [1, 0, 1, 0]);
    lent.step(send(1, 0, 0, 1, true, false), &[(message_offset(0), &bare), (COUNT_OFFSET, &[1])]);
    lent.loads(1, 0, Ok(0));
    lent.loads(0, 0, Err(Refusal::NoToken));
    lent.put_tokens(0, [1, 1, 1, 0]);
    lent.step(OLDEST, &[(COUNT_OFFSET, &[0])]);
    lent.loads(0, 0, Ok(0));
    lent.loads(1, 0, Ok(0));
    assert_eq!(Record::over(&mut lent.given).letter(1, 0), Ok(Letter::Shared));
    lent.runs_alike();
}

/// The owner also comes to a home that holds tokens and is not valid.
#[test]
fn a_bare_owner_makes_home_valid_beside_tokens_without_data() {
    let mut lent = Lent::open(1);
    all_to_board_1(&mut lent);
    let plain = message_bytes([1, 0, 0, 1, 0, 0, 0, 0], [0; 8]);
    lent.put_tokens(1, [1, 1, 1, 0]);
    lent.step(send(1, 0, 0, 1, false, false), &[(message_offset(0), &plain), (COUNT_OFFSET, &[1])]);
    lent.put_tokens(0, [1, 0, 0, 0]);
    lent.step(OLDEST, &[(COUNT_OFFSET, &[0])]);
    lent.loads(0, 0, Err(Refusal::NoData));
    let bare = message_bytes([1, 0, 0, 0, 1, 0, 0, 0], [0; 8]);
    lent.put_tokens(1, [1, 0, 1, 0]);
    lent.step(send(1, 0, 0, 0, true, false), &[(message_offset(0), &bare), (COUNT_OFFSET, &[1])]);
    lent.put_tokens(0, [1, 1, 1, 0]);
    lent.step(OLDEST, &[(COUNT_OFFSET, &[0])]);
    lent.loads(0, 0, Ok(0));
    lent.runs_alike();
}

/// The buffer with one byte changed, if the record is sound then. Where it is not, every call is
/// refused with 2 and leaves the buffer as it is.
fn changed(lent: &Lent, at: usize, byte: u8) -> Option<Vec<u8>> {
    let mut buffer = lent.given.clone();
    buffer[at] = byte;
    let before = buffer.clone();
    let refusal = View::of(&buffer).err();
    assert!(matches!(refusal, None | Some(Refusal::Unsound)), "{at}");
    let mut record = Record::over(&mut buffer);
    assert_eq!(record.letter(1, 0).err(), refusal, "{at}");
    let none = Deliver { position: 64 };
    let answer = Err(refusal.unwrap_or(Refusal::NoMessage));
    assert_eq!(record.step(&none), answer, "{at}");
    record.run(&none.to_bytes().unwrap(), |given| assert_eq!(given, answer, "{at}"));
    assert_eq!(buffer, before, "{at}");
    refusal.is_none().then_some(buffer)
}

#[test]
fn damaged_marks_are_refused() {
    // A mark is 0 or 1, and 1 only beside the owner, which board 1 has here.
    let mut lent = Lent::open(1);
    all_to_board_1(&mut lent);
    let dirty = changed(&lent, dirty_offset(1, 0), 1).unwrap();
    assert_eq!(View::of(&dirty).unwrap().cell(1, 0).unwrap().owner, Owner::Dirty);
    // The mark alone tells M from E.
    assert_eq!(View::of(&lent.given).unwrap().letter(1, 0), Some(Letter::Exclusive));
    assert_eq!(View::of(&dirty).unwrap().letter(1, 0), Some(Letter::Modified));
    for byte in [2, 3, 0x80, 0xff] {
        assert_eq!(changed(&lent, dirty_offset(1, 0), byte), None);
    }
    for component in (0..16).filter(|&component| component != 1) {
        assert_eq!(changed(&lent, dirty_offset(component, 0), 1), None);
    }

    // An owner in flight with data has either mark; the byte behind the mark is 0.
    let with_data = message_bytes([1, 2, 0, 0, 1, 1, 0, 0], [0; 8]);
    lent.put_tokens(1, [2, 0, 1, 0]);
    lent.step(
        send(1, 0, 2, 0, true, true),
        &[(message_offset(0), &with_data), (COUNT_OFFSET, &[1])],
    );
    let dirty = changed(&lent, message_offset(0) + 6, 1).unwrap();
    let message = View::of(&dirty).unwrap().messages().next().unwrap();
    assert_eq!(message.owner, Owner::Dirty);
    assert_eq!(changed(&lent, message_offset(0) + 6, 2), None);
    assert_eq!(changed(&lent, message_offset(0) + 7, 1), None);
    // Without data it has neither, since it goes to a board.
    assert_eq!(changed(&lent, message_offset(0) + 5, 0), None);

    // A message without the owner has no mark.
    let plain = message_bytes([1, 2, 0, 1, 0, 1, 0, 0], [0; 8]);
    lent.put_tokens(1, [1, 0, 1, 0]);
    lent.step(send(1, 0, 2, 1, false, true), &[(message_offset(1), &plain), (COUNT_OFFSET, &[2])]);
    assert_eq!(changed(&lent, message_offset(1) + 6, 1), None);
}

#[test]
fn a_bare_owner_in_flight_is_clean_and_goes_home() {
    let mut lent = Lent::open(1);
    all_to_board_1(&mut lent);
    let bare = message_bytes([1, 0, 0, 2, 1, 0, 0, 0], [0; 8]);
    lent.put_tokens(1, [0, 0, 0, 0]);
    lent.step(send(1, 0, 0, 2, true, false), &[(message_offset(0), &bare), (COUNT_OFFSET, &[1])]);
    assert!(View::of(&lent.given).is_ok());
    for byte in [1, 2, 0xff] {
        assert_eq!(changed(&lent, message_offset(0) + 6, byte), None);
        assert_eq!(changed(&lent, message_offset(0) + 7, byte), None);
    }
    assert_eq!(changed(&lent, message_offset(0) + 1, 2), None);
    assert!(changed(&lent, message_offset(0) + 5, 1).is_some());
}

/// No list of steps from an opening brings a dirty owner to home, but a record that has one is sound.
/// The mark travels as it is.
#[test]
fn a_dirty_owner_at_home_is_sound() {
    let mut lent = Lent::open(1);
    let dirty = changed(&lent, dirty_offset(0, 0), 1).unwrap();
    (lent.given, lent.want) = (dirty.clone(), dirty);
    assert_eq!(lent.cell(0, 0).owner, Owner::Dirty);
    let all = message_bytes([0, 1, 0, 2, 1, 1, 1, 0], [0; 8]);
    lent.put_tokens(0, [0, 0, 0, 0]);
    lent.step(send(0, 0, 1, 2, true, true), &[(message_offset(0), &all), (COUNT_OFFSET, &[1])]);
    lent.put_tokens(1, [2, 1, 1, 1]);
    lent.step(OLDEST, &[(COUNT_OFFSET, &[0])]);
    assert_eq!(Record::over(&mut lent.given).letter(1, 0), Ok(Letter::Modified));
    lent.gives(send(1, 0, 0, 2, true, false), Err(Refusal::BareOwner));
}
