use std::error::Error;
use std::fmt;

/// Why a call was refused: document 01's refusal table, as document 02 has changed it.
///
/// ```
/// use hyaloneth::{Record, Refusal};
///
/// let mut buffer = [0; Record::LONGEST];
/// let refusal = Record::open(&mut buffer, 2, 1, 1).unwrap_err();
/// assert_eq!(refusal, Refusal::Size);
/// assert_eq!(refusal.number(), 19);
/// assert_eq!(refusal.word(), "size");
/// assert_eq!(refusal.to_string(), "refused 19: size");
/// ```
#[derive(Clone, Copy, Debug, PartialEq, Eq, PartialOrd, Ord, Hash)]
#[repr(u8)]
pub enum Refusal {
    /// 1: the bytes are no step record, or the numbers no step.
    Torn = 1,
    /// 2: the buffer is too short for a record, or the record is not sound.
    Unsound = 2,
    /// 3: component above N, block not below B, word above 7, or target above N.
    OffRack = 3,
    /// 4: store, raise, lower or letter at component 0. A load there is judged as at a board.
    Home = 4,
    /// 5: load or forward with nothing held.
    NoToken = 5,
    /// 6: load with tokens but not valid, or send with data and not valid.
    NoData = 6,
    /// 7: store with fewer than T held.
    Short = 7,
    /// 8: send to itself, or forward by the active board.
    SelfTarget = 8,
    /// 9: send of a block that has an active board.
    Claimed = 9,
    /// 10: send of no token.
    Empty = 10,
    /// 11: send of more plain tokens than held, or of an owner not held.
    NotHeld = 11,
    /// 12: send of the owner without data, where it is dirty or the target is a board.
    BareOwner = 12,
    /// 13: send or forward with 64 messages in flight.
    MeshFull = 13,
    /// 14: position not below the count in flight.
    NoMessage = 14,
    /// 15: raise by a waiting board.
    Waiting = 15,
    /// 16: raise by a board whose barring set is not empty.
    Barred = 16,
    /// 17: lower by a board that is not waiting.
    NotWaiting = 17,
    /// 18: forward of a block that has no active board.
    Unclaimed = 18,
    /// 19: opening with N, B or T out of range, or a record's length for such a B.
    Size = 19,
    /// 20: opening or writing into a buffer that ends too early.
    ShortBuffer = 20,
}

impl Refusal {
    /// All refusals, by rising number.
    pub const ALL: [Refusal; 20] = [
        Refusal::Torn,
        Refusal::Unsound,
        Refusal::OffRack,
        Refusal::Home,
        Refusal::NoToken,
        Refusal::NoData,
        Refusal::Short,
        Refusal::SelfTarget,
        Refusal::Claimed,
        Refusal::Empty,
        Refusal::NotHeld,
        Refusal::BareOwner,
        Refusal::MeshFull,
        Refusal::NoMessage,
        Refusal::Waiting,
        Refusal::Barred,
        Refusal::NotWaiting,
        Refusal::Unclaimed,
        Refusal::Size,
        Refusal::ShortBuffer,
    ];

    /// The refusal's number in the table.
    pub fn number(self) -> u32 {
        self as u32
    }

    /// The refusal with this number, if the table has one.
    pub fn from_number(number: u32) -> Option<Refusal> {
        Refusal::ALL.into_iter().find(|r| r.number() == number)
    }

    /// The refusal's word in the table.
    pub fn word(self) -> &'static str {
        match self {
            Refusal::Torn => "torn",
            Refusal::Unsound => "unsound",
            Refusal::OffRack => "off rack",
            Refusal::Home => "home",
            Refusal::NoToken => "no token",
            Refusal::NoData => "no data",
            Refusal::Short => "short",
            Refusal::SelfTarget => "self",
            Refusal::Claimed => "claimed",
            Refusal::Empty => "empty",
            Refusal::NotHeld => "not held",
            Refusal::BareOwner => "bare owner",
            Refusal::MeshFull => "mesh full",
            Refusal::NoMessage => "no message",
            Refusal::Waiting => "waiting",
            Refusal::Barred => "barred",
            Refusal::NotWaiting => "not waiting",
            Refusal::Unclaimed => "unclaimed",
            Refusal::Size => "size",
            Refusal::ShortBuffer => "short buffer",
        }
    }
}

impl fmt::Display for Refusal {
    fn fmt(&self, f: &mut fmt::Formatter<'_>) -> fmt::Result {
        write!(f, "refused {}: {}", self.number(), self.word())
    }
}

impl Error for Refusal {}
