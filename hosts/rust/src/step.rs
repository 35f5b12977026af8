use crate::answer;
use crate::ffi::{self, PLACES};
use crate::Refusal;

/// One step of a policy.
///
/// Numbers are 32 bits wide. The fields of a step record are narrower, but for a store's value: a
/// number that its field does not take is refused with [`Refusal::Torn`] and never cut.
///
/// ```
/// use hyaloneth::{Refusal, Step};
///
/// let step = Step::Deliver { position: 0 };
/// let bytes = step.to_bytes()?;
/// assert_eq!(bytes, [0x13, 0x00, 0x04, 0x09, 0x00, 0x01, 0x00]);
/// assert_eq!(Step::from_bytes(&bytes), Ok(step));
///
/// assert_eq!(Step::Deliver { position: 258 }.to_bytes(), Err(Refusal::Torn));
/// # Ok::<(), Refusal>(())
/// ```
#[derive(Clone, Copy, Debug, PartialEq, Eq, Hash)]
pub enum Step {
    /// Gives a word and changes nothing.
    ///
    /// Refused with [`Refusal::OffRack`], [`Refusal::NoToken`] or [`Refusal::NoData`], in that
    /// order, at home as at a board:
    ///
    /// ```
    /// use hyaloneth::{Record, Refusal, Reply, Step};
    ///
    /// let mut buffer = [0; Record::LONGEST];
    /// let mut rack = Record::open(&mut buffer, 2, 1, 3)?;
    /// let load = Step::Load { component: 0, block: 0, word: 7 };
    /// assert_eq!(rack.step(&load), Ok(Reply::Word(0)));
    ///
    /// // Home gives all its tokens to board 1.
    /// rack.step(&Step::Raise { component: 1, block: 0 })?;
    /// rack.step(&Step::Forward { component: 0, block: 0 })?;
    /// assert_eq!(rack.step(&load), Err(Refusal::NoToken));
    /// # Ok::<(), Refusal>(())
    /// ```
    Load {
        /// The component that loads, 0 for home.
        component: u32,
        /// The block.
        block: u32,
        /// The word of the block, 0 to 7.
        word: u32,
    },
    /// Writes a word in one component. The owner, which it holds, becomes dirty: a board that shows
    /// E shows M afterwards.
    Store {
        /// The board that stores.
        component: u32,
        /// The block.
        block: u32,
        /// The word of the block, 0 to 7.
        word: u32,
        /// What it becomes.
        value: u32,
    },
    /// Takes tokens from a component and puts them into the mesh. The owner needs the words, unless
    /// it is clean and goes home: see [`Owner`](crate::Owner). Its mark is not named, it travels as
    /// it is.
    Send {
        /// The sender, 0 for home.
        component: u32,
        /// The block.
        block: u32,
        /// The component the message goes to.
        target: u32,
        /// How many plain tokens go.
        plain: u32,
        /// Whether the owner goes.
        owner: bool,
        /// Whether the words go.
        data: bool,
    },
    /// Takes a message out of the mesh and gives it to its target. The reply says which, and which
    /// block. An owner that comes home is clean there, and home is valid, also without data.
    Deliver {
        /// The message's place in the mesh, 0 the oldest.
        position: u32,
    },
    /// The board joins the block's waiting set.
    Raise {
        /// The board.
        component: u32,
        /// The block.
        block: u32,
    },
    /// The board leaves the block's waiting set.
    Lower {
        /// The board.
        component: u32,
        /// The block.
        block: u32,
    },
    /// Sends all held tokens to the block's active board.
    Forward {
        /// The component that forwards, 0 for home.
        component: u32,
        /// The block.
        block: u32,
    },
}

const LOAD: u32 = 0x10;
const STORE: u32 = 0x11;
const SEND: u32 = 0x12;
const DELIVER: u32 = 0x13;
const RAISE: u32 = 0x14;
const LOWER: u32 = 0x15;
const FORWARD: u32 = 0x16;

impl Step {
    /// The longest record of a step, in bytes.
    pub const LONGEST: usize = 27;

    /// The step's record.
    ///
    /// Refused with [`Refusal::Torn`] where a number is outside its field.
    pub fn to_bytes(&self) -> Result<Vec<u8>, Refusal> {
        let mut bytes = vec![0; Step::LONGEST];
        let count = self.write(&mut bytes, 0)?;
        bytes.truncate(count);
        Ok(bytes)
    }

    /// Writes the step's record to `out[at]` and the bytes after it, and gives how many bytes it
    /// took. The bytes around it stay as they are.
    ///
    /// Refused with [`Refusal::Torn`] where a number is outside its field, then with
    /// [`Refusal::ShortBuffer`] where there is no room.
    ///
    /// ```
    /// use hyaloneth::{Refusal, Step};
    ///
    /// let mut out = [0xee; 12];
    /// assert_eq!(Step::Deliver { position: 3 }.write(&mut out, 4), Ok(7));
    /// assert_eq!(out, [0xee, 0xee, 0xee, 0xee, 0x13, 0, 4, 9, 0, 1, 3, 0xee]);
    /// assert_eq!(Step::Deliver { position: 3 }.write(&mut out, 6), Err(Refusal::ShortBuffer));
    /// ```
    pub fn write(&self, out: &mut [u8], at: usize) -> Result<usize, Refusal> {
        let numbers = self.numbers();
        // SAFETY: both pointers come from slices, with their lengths; `out` is borrowed alone.
        answer::count(unsafe {
            ffi::hyl_wire_write(numbers.as_ptr(), PLACES, out.as_mut_ptr(), out.len(), at)
        })
    }

    /// The step whose record the bytes are, all of them.
    ///
    /// Refused with [`Refusal::Torn`] where they are none.
    pub fn from_bytes(bytes: &[u8]) -> Result<Step, Refusal> {
        let mut numbers = [0; PLACES];
        // SAFETY: both pointers come from slices, with their lengths; `numbers` is borrowed alone.
        answer::count(unsafe {
            ffi::hyl_wire_read(bytes.as_ptr(), bytes.len(), numbers.as_mut_ptr(), PLACES)
        })?;
        Ok(Step::from_numbers(&numbers))
    }

    /// The kind byte, then each field's value at the place of its tag.
    fn numbers(&self) -> [u32; PLACES] {
        let mut n = [0; PLACES];
        match *self {
            Step::Load { component, block, word } => {
                n[..4].copy_from_slice(&[LOAD, component, block, word]);
            }
            Step::Store { component, block, word, value } => {
                n[..5].copy_from_slice(&[STORE, component, block, word, value])
            }
            Step::Send { component, block, target, plain, owner, data } => {
                n[..3].copy_from_slice(&[SEND, component, block]);
                n[5..9].copy_from_slice(&[target, plain, u32::from(owner), u32::from(data)]);
            }
            Step::Deliver { position } => {
                n[0] = DELIVER;
                n[9] = position;
            }
            Step::Raise { component, block } => n[..3].copy_from_slice(&[RAISE, component, block]),
            Step::Lower { component, block } => n[..3].copy_from_slice(&[LOWER, component, block]),
            Step::Forward { component, block } => {
                n[..3].copy_from_slice(&[FORWARD, component, block]);
            }
        }
        n
    }

    /// The step that numbers of the proved reader encode.
    fn from_numbers(n: &[u32; PLACES]) -> Step {
        let (component, block) = (n[1], n[2]);
        match n[0] {
            LOAD => Step::Load { component, block, word: n[3] },
            STORE => Step::Store { component, block, word: n[3], value: n[4] },
            SEND => Step::Send {
                component,
                block,
                target: n[5],
                plain: n[6],
                owner: n[7] != 0,
                data: n[8] != 0,
            },
            DELIVER => Step::Deliver { position: n[9] },
            RAISE => Step::Raise { component, block },
            LOWER => Step::Lower { component, block },
            FORWARD => Step::Forward { component, block },
            kind => panic!("the library read kind {kind:#x}, which is not in hyaloneth_wire.h"),
        }
    }
}
