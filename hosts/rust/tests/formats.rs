//! Records of another format: as earlier landings left them, with each byte of the format changed, and
//! of random bytes. Every call refuses them with 2 and changes nothing, a torn step is still torn, an
//! opening does not ask, and the view tells the number. `tests/formats.c` is the same in C.

use hyaloneth::{Answer, Record, Refusal, Reply, Step, View};

/// Offsets and sizes in the record, by docs/RECORD.md.
const FORMAT: std::ops::Range<usize> = 28..32;
const MESSAGES: usize = 32;
const MESSAGE_SIZE: usize = 40;
const BLOCKS: usize = 2592;
const BLOCK_SIZE: usize = 632;
const DIRTY: usize = 48;
const WORDS: usize = 120;

/// The format of today's records.
const TODAY: [u8; 4] = [b'H', b'Y', b'L', Record::FORMAT];

const DELIVER: Step = Step::Deliver { position: 0 };
const LOAD_HOME: Step = Step::Load { component: 0, block: 0, word: 0 };

/// A send of the owner and two plain tokens of block 0.
fn send(component: u32, target: u32, data: bool) -> Step {
    Step::Send { component, block: 0, target, plain: 2, owner: true, data }
}

/// One step of each kind.
fn one_of_each() -> [Step; 7] {
    [
        LOAD_HOME,
        send(1, 0, false),
        Step::Store { component: 1, block: 0, word: 0, value: 7 },
        DELIVER,
        Step::Raise { component: 1, block: 0 },
        Step::Lower { component: 1, block: 0 },
        Step::Forward { component: 0, block: 0 },
    ]
}

/// Every call refuses the record, and nothing is changed. An opening takes its buffer.
fn refused(buffer: &mut [u8], of: &str) {
    let before = buffer.to_vec();
    let unsound = Err(Refusal::Unsound);
    assert_eq!(View::of(buffer).err(), Some(Refusal::Unsound), "a view of {of}");

    let mut rack = Record::over(buffer);
    let mut list = Vec::new();
    for step in one_of_each() {
        assert_eq!(rack.step(&step), unsound, "{step} of {of}");
        list.extend(step.to_bytes().unwrap());
    }
    // A step that ends too early, alone and as the last of the list.
    let whole = LOAD_HOME.to_bytes().unwrap();
    let torn = &whole[..whole.len() - 1];
    assert_eq!(rack.step_bytes(torn), Err(Refusal::Torn), "{of}");
    assert_eq!(rack.step_bytes(&[]), Err(Refusal::Torn), "{of}");
    list.extend(torn);
    let mut replies = Vec::new();
    rack.run(&list, |reply| replies.push(reply));
    assert_eq!(replies[..7], [unsound; 7], "a list of {of}");
    assert_eq!(replies[7..], [Err(Refusal::Torn)], "a list of {of}");
    let (mut at, mut answers) = (0, [Answer::default(); 3]);
    assert_eq!(rack.run_some(&list, &mut at, &mut answers), 3, "a list of {of}");
    assert_eq!(answers.map(Answer::get), [unsound; 3], "a list of {of}");
    assert_eq!(rack.letter(1, 0), Err(Refusal::Unsound), "a letter of {of}");
    assert_eq!(rack.letter(16, 32), Err(Refusal::Unsound), "a letter off the rack of {of}");
    assert_eq!(rack.view().err(), Some(Refusal::Unsound), "a view of {of}");
    assert!(buffer == before, "{of} was changed");

    let mut opened = before;
    assert!(Record::open(&mut opened, 1, 1, 1).is_ok(), "an opening over {of}");
    assert_eq!(View::format_of(&opened), Some(Record::FORMAT), "an opening over {of}");
    assert!(View::of(&opened).is_ok(), "an opening over {of}");
}

/// Nothing but its format makes the record unsound.
fn sound_with_format(buffer: &mut [u8], of: &str) {
    buffer[FORMAT].copy_from_slice(&TODAY);
    assert!(View::of(buffer).is_ok(), "{of}, with the format");
}

// ---- Records of 2 boards, 1 block and 3 tokens, as earlier landings left them in a filled buffer.

#[derive(Clone, Copy, PartialEq, PartialOrd)]
enum State {
    Fresh,
    /// Board 1 has the block and stored 42.
    Stored,
    /// The block, its owner dirty, is on its way to board 2.
    Sent,
}

const STATES: [State; 3] = [State::Fresh, State::Stored, State::Sent];

/// Today's record.
fn opened(state: State, fill: u8) -> Vec<u8> {
    let mut buffer = vec![fill; Record::LONGEST];
    let mut rack = Record::open(&mut buffer, 2, 1, 3).unwrap();
    if state >= State::Stored {
        rack.step(&send(0, 1, true)).unwrap();
        rack.step(&DELIVER).unwrap();
        rack.step(&Step::Store { component: 1, block: 0, word: 0, value: 42 }).unwrap();
    }
    if state >= State::Sent {
        rack.step(&send(1, 2, true)).unwrap();
    }
    assert_eq!(buffer[FORMAT], TODAY);
    assert_eq!(View::format_of(&buffer), Some(Record::FORMAT));
    buffer
}

/// The tenth landing to the twelfth wrote no format.
fn without_format(state: State, fill: u8) -> Vec<u8> {
    let mut buffer = opened(state, fill);
    buffer[FORMAT].fill(fill);
    buffer
}

/// The sixth landing to the ninth wrote no marks either: a block had room in their lane, a message a
/// byte that is always 0.
fn without_marks(state: State, fill: u8) -> Vec<u8> {
    let mut buffer = without_format(state, fill);
    buffer[BLOCKS + DIRTY..][..16].fill(fill);
    for position in 0..usize::from(buffer[3]) {
        buffer[MESSAGES + MESSAGE_SIZE * position + 6] = 0;
    }
    buffer
}

/// Up to the fifth landing the header had four bytes, a message 38 (six figures, the words) and a
/// block 592: cells of 35 bytes (plain, owner, valid, the words) up to component N, and at 560 the
/// waiting set and the barring sets of the boards. Nothing wrote what stands between.
fn by_cells(state: State, fill: u8) -> Vec<u8> {
    let today = opened(state, fill);
    let mut buffer = vec![fill; Record::LONGEST];
    let mut put = |at: usize, bytes: &[u8]| buffer[at..][..bytes.len()].copy_from_slice(bytes);
    put(0, &today[..4]);
    for position in 0..64 {
        let message = &today[MESSAGES + MESSAGE_SIZE * position..][..MESSAGE_SIZE];
        put(4 + 38 * position, &message[..6]);
        put(4 + 38 * position + 6, &message[8..]);
    }
    let (block, boards) = (&today[BLOCKS..][..BLOCK_SIZE], usize::from(today[0]));
    for component in 0..=boards {
        let cell = 2436 + 35 * component;
        put(cell, &[0, 16, 32].map(|lane| block[lane + component]));
        put(cell + 3, &block[WORDS + 32 * component..][..32]);
    }
    put(2436 + 560, &block[112..114]);
    put(2436 + 562, &block[82..][..2 * boards]);
    buffer
}

#[test]
fn records_of_earlier_landings_are_refused() {
    for fill in [0, 1, b'H', 0xff] {
        for state in STATES {
            let mut fifth = by_cells(state, fill);
            assert_eq!(View::format_of(&fifth), None);
            refused(&mut fifth, "a record of the fifth landing");

            let mut ninth = without_marks(state, fill);
            assert_eq!(View::format_of(&ninth), None);
            refused(&mut ninth, "a record of the sixth to the ninth landing");
            // In a cleared buffer no mark is wrong by its form.
            if fill == 0 {
                sound_with_format(&mut ninth, "a record of the sixth to the ninth landing");
            }

            let mut twelfth = without_format(state, fill);
            assert_eq!(View::format_of(&twelfth), None);
            refused(&mut twelfth, "a record of the tenth to the twelfth landing");
            sound_with_format(&mut twelfth, "a record of the tenth to the twelfth landing");
        }
    }
}

/// Board 1 stored 42. In a record of the ninth landing in a cleared buffer its owner would pass for
/// clean and go home bare, and home would give 0.
#[test]
fn the_format_keeps_an_old_word_from_being_loaded() {
    let mut buffer = without_marks(State::Stored, 0);
    let steps = [send(1, 0, false), DELIVER, LOAD_HOME];
    let mut rack = Record::over(&mut buffer);
    assert_eq!(steps.map(|step| rack.step(&step)), [Err(Refusal::Unsound); 3]);

    buffer[FORMAT].copy_from_slice(&TODAY);
    let mut rack = Record::over(&mut buffer);
    let served = Reply::Served { component: 0, block: 0 };
    assert_eq!(
        steps.map(|step| rack.step(&step)),
        [Ok(Reply::Done), Ok(served), Ok(Reply::Word(0))]
    );
}

#[test]
fn each_byte_of_the_format_is_looked_at() {
    let mut buffer = opened(State::Stored, 0xa5);
    let mut count = 0;
    for at in FORMAT {
        let kept = buffer[at];
        for value in (0..=255).filter(|&value| value != kept) {
            buffer[at] = value;
            let number = (at == FORMAT.end - 1).then_some(value);
            assert_eq!(View::format_of(&buffer), number, "{at} {value}");
            refused(&mut buffer, &format!("a record whose byte {at} is {value}"));
            count += 1;
        }
        buffer[at] = kept;
    }
    assert_eq!(count, 1020);
    let load = Step::Load { component: 1, block: 0, word: 0 };
    assert_eq!(Record::over(&mut buffer).step(&load), Ok(Reply::Word(42)));
}

// ---- Any bytes, with sizes, tokens and sets of a sound record.

/// Numbers that a seed decides.
struct Dice(u64);

impl Dice {
    fn below(&mut self, count: u32) -> u32 {
        self.0 ^= self.0 << 13;
        self.0 ^= self.0 >> 7;
        self.0 ^= self.0 << 17;
        (self.0 >> 32) as u32 % count
    }

    fn fill(&mut self, bytes: &mut [u8]) {
        bytes.fill_with(|| self.below(256) as u8);
    }

    /// A rack in a buffer of any bytes. Its tokens move and its boards wait, as far as the engine
    /// lets them; its words are any.
    fn rack(&mut self) -> Vec<u8> {
        let (boards, blocks) = (1 + self.below(15), 1 + self.below(32));
        let tokens = boards + self.below(65 - boards);
        let mut buffer = vec![0; Record::len_for(blocks).unwrap()];
        self.fill(&mut buffer);
        let mut rack = Record::open(&mut buffer, boards, blocks, tokens).unwrap();
        for _ in 0..self.below(40) {
            let component = 1 + self.below(boards);
            let step = match self.below(4) {
                0 => Step::Raise { component, block: self.below(blocks) },
                1 => Step::Forward { component: 0, block: self.below(blocks) },
                2 => Step::Deliver { position: self.below(3) },
                _ => Step::Send {
                    component: 0,
                    block: self.below(blocks),
                    target: component,
                    plain: self.below(3),
                    owner: self.below(2) == 1,
                    data: true,
                },
            };
            // A refused step is as good.
            let _ = rack.step(&step);
        }
        for block in 0..blocks as usize {
            self.fill(&mut buffer[BLOCKS + BLOCK_SIZE * block..][WORDS..BLOCK_SIZE]);
        }
        buffer
    }
}

#[test]
fn any_bytes_without_the_format_are_refused() {
    let mut dice = Dice(0x9e37_79b9_7f4a_7c15);
    for _ in 0..1000 {
        let mut buffer = dice.rack();
        while buffer[FORMAT] == TODAY {
            dice.fill(&mut buffer[FORMAT]);
        }
        refused(&mut buffer, "any bytes");
        sound_with_format(&mut buffer, "any bytes");
    }
}

#[test]
fn any_bytes_may_be_asked_for_their_format() {
    let record = opened(State::Fresh, 0);
    for len in 0..FORMAT.end {
        assert_eq!(View::format_of(&record[..len]), None, "{len}");
    }
    assert_eq!(View::format_of(&record[..FORMAT.end]), Some(Record::FORMAT));
}
