use crate::Refusal;
use std::fmt;

/// What an accepted step gives: a load its word, a deliver whom it served, any other step `Done`.
///
/// ```
/// use hyaloneth::Reply;
///
/// assert_eq!(Reply::Done.to_string(), "done");
/// assert_eq!(Reply::Word(42).to_string(), "word 0x0000002a");
/// assert_eq!(Reply::Served { component: 1, block: 0 }.to_string(), "served 1 block 0");
/// ```
#[derive(Clone, Copy, Debug, PartialEq, Eq, Hash)]
pub enum Reply {
    /// The step was made.
    Done,
    /// The word of an answered load.
    Word(u32),
    /// Whom a deliver served. Comparing with it tells whether a board got its block:
    ///
    /// ```
    /// use hyaloneth::{Record, Refusal, Reply, Step};
    ///
    /// let mut buffer = [0; Record::LONGEST];
    /// let mut rack = Record::open(&mut buffer, 2, 2, 3)?;
    /// rack.step(&Step::Raise { component: 2, block: 1 })?;
    /// rack.step(&Step::Forward { component: 0, block: 1 })?;
    /// let reply = rack.step(&Step::Deliver { position: 0 })?;
    /// assert_eq!(reply, Reply::Served { component: 2, block: 1 });
    /// # Ok::<(), Refusal>(())
    /// ```
    Served {
        /// The target of its message, 0 for home.
        component: u32,
        /// The block of its message.
        block: u32,
    },
}

impl fmt::Display for Reply {
    fn fmt(&self, f: &mut fmt::Formatter<'_>) -> fmt::Result {
        match self {
            Reply::Done => f.write_str("done"),
            Reply::Word(word) => write!(f, "word {word:#010x}"),
            Reply::Served { component, block } => write!(f, "served {component} block {block}"),
        }
    }
}

/// The state letter of a board and a block, by what the board holds of the block's T tokens.
///
/// A board that gets a whole block with a clean owner shows E, and M once it has stored; with a
/// dirty owner it shows M at once:
///
/// ```
/// use hyaloneth::{Letter, Record, Refusal, Step};
///
/// let mut buffer = [0; Record::LONGEST];
/// let mut rack = Record::open(&mut buffer, 2, 1, 3)?;
/// let send = |component, target, data| {
///     Step::Send { component, block: 0, target, plain: 2, owner: true, data }
/// };
/// let oldest = Step::Deliver { position: 0 };
/// rack.step(&send(0, 1, true))?;
/// rack.step(&oldest)?;
/// assert_eq!(rack.letter(1, 0), Ok(Letter::Exclusive));
/// rack.step(&Step::Store { component: 1, block: 0, word: 0, value: 42 })?;
/// assert_eq!(rack.letter(1, 0), Ok(Letter::Modified));
///
/// // At home the owner becomes clean. A board that shows E may give the block back bare.
/// rack.step(&send(1, 0, true))?;
/// rack.step(&oldest)?;
/// rack.step(&send(0, 2, true))?;
/// rack.step(&oldest)?;
/// assert_eq!(rack.letter(2, 0), Ok(Letter::Exclusive));
/// rack.step(&send(2, 0, false))?;
/// assert_eq!(rack.letter(2, 0), Ok(Letter::Invalid));
/// # Ok::<(), Refusal>(())
/// ```
#[derive(Clone, Copy, Debug, PartialEq, Eq, Hash)]
pub enum Letter {
    /// M: all T, and the owner is dirty.
    Modified,
    /// O: the owner, clean or dirty, and fewer than T.
    Owned,
    /// E: all T, and the owner is clean. There is no other copy, and home has the words, as
    /// [`Owner`](crate::Owner) says of clean owners.
    Exclusive,
    /// S: plain tokens only, and its words are valid.
    Shared,
    /// I: anything else; that is no token, or plain tokens only without valid words.
    Invalid,
}

impl Letter {
    /// The letter itself: `M`, `O`, `E`, `S` or `I`.
    ///
    /// ```
    /// use hyaloneth::Letter;
    ///
    /// assert_eq!(Letter::Modified.char(), 'M');
    /// assert_eq!(Letter::Exclusive.char(), 'E');
    /// assert_eq!(Letter::Invalid.to_string(), "I");
    /// ```
    pub fn char(self) -> char {
        match self {
            Letter::Modified => 'M',
            Letter::Owned => 'O',
            Letter::Exclusive => 'E',
            Letter::Shared => 'S',
            Letter::Invalid => 'I',
        }
    }

    /// Whether the board may store: it holds all T, so it shows M or E.
    ///
    /// ```
    /// use hyaloneth::Letter::*;
    ///
    /// assert!([Modified, Exclusive].into_iter().all(|letter| letter.may_store()));
    /// assert!(![Owned, Shared, Invalid].into_iter().any(|letter| letter.may_store()));
    /// ```
    pub fn may_store(self) -> bool {
        matches!(self, Letter::Modified | Letter::Exclusive)
    }
}

impl fmt::Display for Letter {
    fn fmt(&self, f: &mut fmt::Formatter<'_>) -> fmt::Result {
        fmt::Display::fmt(&self.char(), f)
    }
}

/// The reply or refusal of one step as the engine packs it: a place for it can be lent to
/// [`Record::run_some`](crate::Record::run_some) without copying.
///
/// ```
/// use hyaloneth::{Answer, Reply};
///
/// assert_eq!(Answer::default().get(), Ok(Reply::Done));
/// ```
#[derive(Clone, Copy, Debug, Default, PartialEq, Eq, Hash)]
#[repr(transparent)]
pub struct Answer(u64);

impl Answer {
    /// The reply, or the refusal.
    pub fn get(self) -> Result<Reply, Refusal> {
        match unpack(self.0)? {
            (DONE, _) => Ok(Reply::Done),
            (WORD_GIVEN, word) => Ok(Reply::Word(word)),
            // The component has bits 48 to 55, the block bits 32 to 47.
            (SERVED, _) => Ok(Reply::Served {
                component: u32::from((self.0 >> 48) as u8),
                block: u32::from((self.0 >> 32) as u16),
            }),
            _ => unknown(self.0),
        }
    }
}

/// The result of an entry that gives a count.
pub(crate) fn count(result: u64) -> Result<usize, Refusal> {
    match unpack(result)? {
        (DONE, count) => Ok(count as usize),
        _ => unknown(result),
    }
}

/// The result of an entry that gives the state letter.
pub(crate) fn letter(result: u64) -> Result<Letter, Refusal> {
    match unpack(result)? {
        (LETTER_GIVEN, 0x4d) => Ok(Letter::Modified),
        (LETTER_GIVEN, 0x4f) => Ok(Letter::Owned),
        (LETTER_GIVEN, 0x45) => Ok(Letter::Exclusive),
        (LETTER_GIVEN, 0x53) => Ok(Letter::Shared),
        (LETTER_GIVEN, 0x49) => Ok(Letter::Invalid),
        _ => unknown(result),
    }
}

/// The result of one step.
pub(crate) fn reply(result: u64) -> Result<Reply, Refusal> {
    Answer(result).get()
}

const DONE: u64 = 0;
const REFUSED: u64 = 1;
const WORD_GIVEN: u64 = 2;
const LETTER_GIVEN: u64 = 3;
const SERVED: u64 = 4;

/// Takes a result apart: bits 56 to 63 its kind, bits 0 to 31 its number.
fn unpack(result: u64) -> Result<(u64, u32), Refusal> {
    let number = result as u32;
    match result >> 56 {
        REFUSED => Err(Refusal::from_number(number).unwrap_or_else(|| unknown(result))),
        kind => Ok((kind, number)),
    }
}

/// Only archives of another edition than the headers give such a result.
fn unknown(result: u64) -> ! {
    panic!("the library's result {result:#018x} is not in include/hyaloneth.h")
}

#[cfg(test)]
mod tests {
    use super::*;
    use crate::script::{assemble, records};
    use crate::{ffi, Record};

    fn served(component: u32, block: u32) -> Result<Reply, Refusal> {
        Ok(Reply::Served { component, block })
    }

    #[test]
    fn packed_numbers_are_replies() {
        for (packed, reply) in [
            (0, Ok(Reply::Done)),
            (0x0100_0000_0000_000e, Err(Refusal::NoMessage)),
            (0x0200_0000_0000_002a, Ok(Reply::Word(42))),
            (0x0400_0000_0000_0000, served(0, 0)),
            (0x0401_0000_0000_0000, served(1, 0)),
            (0x0403_000a_0000_0000, served(3, 10)),
            (0x040f_001f_0000_0000, served(15, 31)),
            (0x04ff_ffff_0000_0000, served(255, 65_535)),
        ] {
            assert_eq!(Answer(packed).get(), reply, "{packed:#018x}");
        }
    }

    #[test]
    #[should_panic = "the library's result 0x0500000000000000 is not in include/hyaloneth.h"]
    fn an_unknown_kind_is_no_reply() {
        let _ = Answer(0x0500_0000_0000_0000).get();
    }

    /// The letters that the header lists, as the engine packs them.
    const LETTERS: [(char, u64, Letter); 5] = [
        ('M', 0x0300_0000_0000_004d, Letter::Modified),
        ('O', 0x0300_0000_0000_004f, Letter::Owned),
        ('E', 0x0300_0000_0000_0045, Letter::Exclusive),
        ('S', 0x0300_0000_0000_0053, Letter::Shared),
        ('I', 0x0300_0000_0000_0049, Letter::Invalid),
    ];

    #[test]
    fn packed_numbers_are_letters() {
        for (char, packed, want) in LETTERS {
            assert_eq!(letter(packed), Ok(want), "{packed:#018x}");
            assert_eq!((want.char(), want.to_string()), (char, char.to_string()));
        }
        for refusal in [Refusal::Unsound, Refusal::OffRack, Refusal::Home] {
            let packed = 0x0100_0000_0000_0000 | u64::from(refusal.number());
            assert_eq!(letter(packed), Err(refusal));
        }
    }

    #[test]
    fn the_header_lists_the_letters() {
        let header = include_str!("../../../include/hyaloneth.h");
        let listed = header.lines().filter_map(|line| line.strip_prefix(" *   '")?.chars().next());
        assert!(listed.eq(LETTERS.map(|(char, _, _)| char)));
    }

    #[test]
    fn other_codes_are_no_letters() {
        for code in (0..=0xff).filter(|&code| LETTERS.iter().all(|&(char, ..)| char as u64 != code))
        {
            let packed = 0x0300_0000_0000_0000 | code;
            assert!(std::panic::catch_unwind(|| letter(packed)).is_err(), "{packed:#018x}");
        }
    }

    #[test]
    #[should_panic = "the library's result 0x0300000000000065 is not in include/hyaloneth.h"]
    fn a_small_letter_is_none() {
        let _ = letter(0x0300_0000_0000_0065);
    }

    /// The letter as the engine packs it.
    fn packed_letter(buffer: &[u8], component: u32, block: u32) -> u64 {
        // SAFETY: the pointer comes from a slice, with its length.
        unsafe { ffi::hyl_letter(buffer.as_ptr(), buffer.len(), component, block) }
    }

    /// Boards 1 and up show these letters after the opening of a script and after each of its steps.
    fn packs_letters(script: &str, want: &[&str]) {
        let input = assemble(script).unwrap();
        let (sizes, list) = input.split_at(3);
        let [boards, blocks, tokens] = [sizes[0], sizes[1], sizes[2]].map(u32::from);
        let mut buffer = vec![0; Record::len_for(blocks).unwrap()];
        Record::open(&mut buffer, boards, blocks, tokens).unwrap();
        let mut shown = Vec::new();
        let mut show = |buffer: &[u8]| {
            let packed = (1..=boards).map(|board| packed_letter(buffer, board, 0));
            let chars = packed.map(|packed| LETTERS.iter().find(|row| row.1 == packed).unwrap().0);
            shown.push(chars.collect::<String>());
            assert_eq!(packed_letter(buffer, 0, 0), 0x0100_0000_0000_0004);
            for (component, block) in [(boards + 1, 0), (1, blocks), (0, blocks), (258, 0)] {
                assert_eq!(packed_letter(buffer, component, block), 0x0100_0000_0000_0003);
            }
            // A byte too short: 2, before 3 and 4.
            for component in 0..=boards + 1 {
                let short = packed_letter(&buffer[..buffer.len() - 1], component, 0);
                assert_eq!(short, 0x0100_0000_0000_0002);
            }
        };
        show(&buffer);
        for step in records(list) {
            assert!(Record::over(&mut buffer).step_bytes(step).is_ok());
            show(&buffer);
        }
        assert_eq!(shown, want);
    }

    #[test]
    fn the_engine_packs_letters() {
        packs_letters(
            include_str!("../../traces/exclusive.trace"),
            &[
                "II", "II", "EI", "MI", "II", "II", "II", "EI", "OI", "OS", "OI", "EI", "MI", "II",
                "IM", "II", "II", "II", "IE", "II", "II", "II", "II", "II", "EI", "EI",
            ],
        );
        // One token, which is the owner.
        packs_letters(
            "rack 1 board 1 block 1 token
             send home block 0 -> 1 owner data
             deliver 0
             store 1 block 0 word 0 = 0
             send 1 block 0 -> home owner data
             deliver 0
             send home block 0 -> 1 owner data
             deliver 0",
            &["I", "I", "E", "M", "I", "I", "I", "E"],
        );
    }

    /// A script runs to these packed numbers, step by step and as a list.
    fn packs(script: &str, want: &[u64]) {
        let input = assemble(script).unwrap();
        let (sizes, list) = input.split_at(3);
        let open = || {
            let mut buffer = vec![0; Record::LONGEST];
            let [boards, blocks, tokens] = [sizes[0], sizes[1], sizes[2]].map(u32::from);
            Record::open(&mut buffer, boards, blocks, tokens).unwrap();
            buffer
        };
        let mut buffer = open();
        let singly: Vec<u64> = records(list)
            // SAFETY: both pointers come from slices, with their lengths; the buffer is borrowed
            // alone.
            .map(|step| unsafe {
                ffi::hyl_step(buffer.as_mut_ptr(), buffer.len(), step.as_ptr(), step.len())
            })
            .collect();
        assert_eq!(singly, want);
        let mut answers = vec![Answer(u64::MAX); want.len() + 1];
        let made = Record::over(&mut open()).run_some(list, &mut 0, &mut answers);
        assert_eq!(made, want.len());
        let stored: Vec<u64> = answers[..made].iter().map(|answer| answer.0).collect();
        assert_eq!(stored, want);
    }

    #[test]
    fn the_engine_packs_loads_at_home() {
        let refused = |number: u64| 0x0100_0000_0000_0000 | number;
        let word = |word: u64| 0x0200_0000_0000_0000 | word;
        packs(
            include_str!("../../traces/home_loads.trace"),
            &[
                word(0),
                0,
                refused(5),
                0x0401_0000_0000_0000,
                0,
                0,
                0x0400_0000_0000_0000,
                refused(6),
                0,
                0x0400_0000_0000_0000,
                word(5),
                refused(4),
                refused(4),
                refused(4),
                refused(3),
                refused(3),
                refused(3),
            ],
        );
    }

    #[test]
    fn the_engine_packs_bare_owners() {
        let refused = |number: u64| 0x0100_0000_0000_0000 | number;
        let word = |word: u64| 0x0200_0000_0000_0000 | word;
        let served = |component: u64| 0x0400_0000_0000_0000 | component << 48;
        packs(
            include_str!("../../traces/clean_owner.trace"),
            &[
                0,
                served(1),
                0,
                refused(12),
                0,
                served(0),
                0,
                served(2),
                word(7),
                refused(12),
                0,
                refused(5),
                served(0),
                word(7),
                0,
                served(1),
                word(7),
            ],
        );
        packs(
            include_str!("../../traces/bare_with_claims.trace"),
            &[
                0,
                served(1),
                0,
                refused(9),
                0,
                served(2),
                0,
                0,
                served(0),
                word(0),
                0,
                served(1),
                0,
                0,
                refused(9),
                0,
                served(2),
                0,
                refused(12),
            ],
        );
    }

    #[test]
    fn the_engine_packs_whom_a_deliver_served() {
        packs(
            include_str!("../../traces/served.trace"),
            &[0, 0, 0x0403_000a_0000_0000, 0x040f_001f_0000_0000, 0x0100_0000_0000_000e],
        );
        packs(
            include_str!("../../traces/served_home.trace"),
            &[0, 0x0401_0000_0000_0000, 0, 0x0400_0000_0000_0000],
        );
    }
}
