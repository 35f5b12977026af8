//! Document 01's examples: the lines W1 to W11 and the input of rackrun, with the results that it states, a deliver's by document 02's No.
//! 1 and the letter before W2's store by No. 4. Beside them a forward into a full mesh; delivers that serve home, serve from the middle, and
//! serve components and blocks of two digits; loads at home by No. 7, with what home still refuses, on a small rack and on a large one;
//! owners that go home bare by No. 2, or may not; and the letters by No. 4.

use crate::calls::unhex;
use crate::model::{self, Step};

/// A call and its stated result, in rackrun's words (`ok`, `v` and the word, `d` and whom a deliver served, `r` and the refusal) or a letter.
pub enum Line {
    Step(Vec<u8>, &'static str),
    Letter(u32, u32, &'static str),
    /// The same on a record that lacks its last byte.
    ShortLetter(u32, u32, &'static str),
    /// The target of the newest message.
    Target(u8),
}

/// Examples that rackrun is tried on too.
pub const BARE_ALONE: &str = "bare_alone";
pub const BARE_CLAIMED: &str = "bare_claimed";
pub const BARE_DIRTY: &str = "bare_dirty";
pub const BARE_FULL: &str = "bare_full";
pub const BARE_HOME_LOADS: &str = "bare_home_loads";
pub const BARE_RETURN: &str = "bare_return";
pub const HOME_LOADS: &str = "home_loads";
pub const HOME_LOADS_FAR: &str = "home_loads_far";
pub const LISTING: &str = "listing";
pub const SERVED_FAR: &str = "served_far";
pub const SERVED_HOME: &str = "served_home";
pub const SERVED_MIDDLE: &str = "served_middle";

pub struct Example {
    pub name: &'static str,
    pub sizes: (u32, u32, u32),
    pub opening: &'static str,
    pub lines: Vec<Line>,
}

/// Whom a deliver served, in rackrun's words and as one number: both by hand, so that no program's packing is taken for granted.
pub const SERVED: [(&str, u64); 12] = [
    ("d0.0", 0x0400_0000_0000_0000),
    ("d0.10", 0x0400_000a_0000_0000),
    ("d0.31", 0x0400_001f_0000_0000),
    ("d1.0", 0x0401_0000_0000_0000),
    ("d1.1", 0x0401_0001_0000_0000),
    ("d2.0", 0x0402_0000_0000_0000),
    ("d2.1", 0x0402_0001_0000_0000),
    ("d3.0", 0x0403_0000_0000_0000),
    ("d3.10", 0x0403_000a_0000_0000),
    ("d15.0", 0x040f_0000_0000_0000),
    ("d15.30", 0x040f_001e_0000_0000),
    ("d15.31", 0x040f_001f_0000_0000),
];

fn bytes(hex: &str, says: &'static str) -> Line {
    Line::Step(unhex(hex).expect("hexadecimal digits"), says)
}

fn line(step: Step, says: &'static str) -> Line {
    Line::Step(model::write(step), says)
}

fn send(component: u8, block: u8, target: u8, plain: u8, owner: bool, data: bool, says: &'static str) -> Line {
    line(Step::Send { component, block, target, plain, owner, data }, says)
}

/// All tokens of block 0 on a rack of T = 3, with data.
fn whole(component: u8, target: u8, says: &'static str) -> Line {
    send(component, 0, target, 2, true, true, says)
}

/// The owner of block 0 without data, beside so many plain tokens.
fn bare(component: u8, target: u8, plain: u8, says: &'static str) -> Line {
    send(component, 0, target, plain, true, false, says)
}

fn deliver(says: &'static str) -> Line {
    deliver_at(0, says)
}

fn deliver_at(position: u8, says: &'static str) -> Line {
    line(Step::Deliver { position }, says)
}

fn raise(component: u8, says: &'static str) -> Line {
    line(Step::Raise { component, block: 0 }, says)
}

fn forward(component: u8, says: &'static str) -> Line {
    line(Step::Forward { component, block: 0 }, says)
}

fn lower(component: u8, says: &'static str) -> Line {
    line(Step::Lower { component, block: 0 }, says)
}

fn load(component: u8, says: &'static str) -> Line {
    load_at(component, 0, 0, says)
}

fn load_at(component: u8, block: u8, word: u8, says: &'static str) -> Line {
    line(Step::Load { component, block, word }, says)
}

fn store(component: u8, says: &'static str) -> Line {
    store_at(component, 0, 0, 1, says)
}

fn store_at(component: u8, block: u8, word: u8, value: u32, says: &'static str) -> Line {
    line(Step::Store { component, block, word, value }, says)
}

/// The letter of block 0.
fn shows(component: u32, says: &'static str) -> Line {
    Line::Letter(component, 0, says)
}

pub fn all() -> Vec<Example> {
    let rack = |name, lines| Example { name, sizes: (2, 1, 3), opening: "ok", lines };
    let opening = |name, tokens, opening| Example { name, sizes: (2, 1, tokens), opening, lines: Vec::new() };
    let w2 = || vec![send(0, 0, 1, 2, true, true, "ok"), deliver("d1.0"), shows(1, "E"), store(1, "ok"), shows(1, "M")];
    let mut w3 = w2();
    w3.extend([send(1, 0, 2, 1, false, false, "ok"), deliver("d2.0"), load(2, "r6")]);
    let mut w4 = w2();
    w4.extend([send(1, 0, 2, 1, false, false, "ok"), deliver("d2.0"), store(1, "r7")]);
    let full = || {
        let mut lines: Vec<Line> = (0..63).map(|_| send(0, 0, 1, 1, false, false, "ok")).collect();
        lines.extend([send(0, 0, 1, 0, true, true, "ok"), send(0, 1, 1, 1, false, false, "r13")]);
        lines
    };
    let mut w8 = full();
    w8.extend([deliver("d1.0"), send(0, 1, 1, 1, false, false, "ok")]);
    let mut forward_full = full();
    forward_full.extend([line(Step::Raise { component: 1, block: 1 }, "ok"), line(Step::Forward { component: 0, block: 1 }, "r13")]);
    let mut examples = vec![
        rack("W1", vec![load(1, "r5")]),
        rack("W2", w2()),
        rack("W3", w3),
        rack("W4", w4),
        rack("W5", vec![send(0, 0, 1, 0, true, false, "r12")]),
        rack("W6", vec![send(0, 0, 1, 3, false, false, "r11")]),
        rack("W7", vec![send(0, 0, 1, 0, false, false, "r10")]),
        Example { name: "W8", sizes: (2, 2, 64), opening: "ok", lines: w8 },
        Example { name: "W8, then a forward", sizes: (2, 2, 64), opening: "ok", lines: forward_full },
        rack("W9", vec![raise(2, "ok"), raise(1, "ok"), forward(0, "ok"), Line::Target(1)]),
        rack("W10", vec![raise(1, "ok"), raise(2, "ok"), lower(1, "ok"), raise(1, "r16"), lower(2, "ok"), raise(1, "ok")]),
        opening("W11, T = 1", 1, "r19"),
        opening("W11, T = 2", 2, "ok"),
        rack(
            LISTING,
            vec![
                bytes("12 00 18 01 00 01 00 02 00 01 00 05 00 01 01 06 00 01 02 07 00 01 01 08 00 01 01", "ok"),
                bytes("13 00 04 09 00 01 00", "d1.0"),
                bytes("11 00 13 01 00 01 01 02 00 01 00 03 00 01 00 04 00 04 00 00 00 2A", "ok"),
                bytes("10 00 0C 01 00 01 01 02 00 01 00 03 00 01 00", "v0000002a"),
                bytes("10 00 0C 01 00 01 02 02 00 01 00 03 00 01 00", "r5"),
            ],
        ),
        Example {
            name: SERVED_FAR,
            sizes: (15, 32, 15),
            opening: "ok",
            lines: vec![
                bytes("12 00 18 01 00 01 00 02 00 01 1F 05 00 01 0F 06 00 01 01 07 00 01 00 08 00 01 00", "ok"),
                bytes("12 00 18 01 00 01 00 02 00 01 0A 05 00 01 03 06 00 01 01 07 00 01 00 08 00 01 01", "ok"),
                bytes("13 00 04 09 00 01 01", "d3.10"),
                bytes("13 00 04 09 00 01 00", "d15.31"),
                bytes("13 00 04 09 00 01 00", "r14"),
            ],
        },
        rack(
            SERVED_HOME,
            vec![send(0, 0, 1, 1, false, false, "ok"), deliver("d1.0"), send(1, 0, 0, 1, false, false, "ok"), deliver("d0.0")],
        ),
        Example {
            name: SERVED_MIDDLE,
            sizes: (3, 2, 5),
            opening: "ok",
            lines: vec![
                send(0, 0, 1, 1, false, false, "ok"),
                send(0, 1, 2, 1, false, true, "ok"),
                send(0, 0, 3, 1, false, true, "ok"),
                deliver_at(1, "d2.1"),
                deliver("d1.0"),
                deliver("d3.0"),
            ],
        },
        rack(
            HOME_LOADS,
            vec![
                bytes("10 00 0C 01 00 01 00 02 00 01 00 03 00 01 00", "v00000000"),
                send(0, 0, 1, 2, true, true, "ok"),
                load(0, "r5"),
                deliver("d1.0"),
                store_at(1, 0, 0, 5, "ok"),
                send(1, 0, 0, 1, false, false, "ok"),
                deliver("d0.0"),
                load(0, "r6"),
                send(1, 0, 0, 1, true, true, "ok"),
                deliver("d0.0"),
                load(0, "v00000005"),
                store(0, "r4"),
                raise(0, "r4"),
                lower(0, "r4"),
                load(3, "r3"),
                load_at(0, 1, 0, "r3"),
                load_at(0, 0, 8, "r3"),
                shows(0, "r4"),
            ],
        ),
        // Home gets back a token of block 31 with words and one of block 10 without.
        Example {
            name: HOME_LOADS_FAR,
            sizes: (15, 32, 15),
            opening: "ok",
            lines: vec![
                bytes("10 00 0C 01 00 01 00 02 00 01 1F 03 00 01 07", "v00000000"),
                send(0, 31, 15, 14, true, true, "ok"),
                send(0, 10, 3, 14, true, true, "ok"),
                deliver_at(1, "d3.10"),
                deliver("d15.31"),
                store_at(15, 31, 7, 0xfedc_ba98, "ok"),
                store_at(15, 31, 0, 0x8000_0001, "ok"),
                store_at(3, 10, 7, 0x0000_000a, "ok"),
                load_at(0, 31, 7, "r5"),
                send(15, 31, 0, 1, false, true, "ok"),
                send(3, 10, 0, 1, false, false, "ok"),
                deliver("d0.31"),
                deliver("d0.10"),
                load_at(0, 31, 7, "vfedcba98"),
                load_at(0, 31, 6, "v00000000"),
                load_at(0, 31, 0, "v80000001"),
                load_at(0, 10, 7, "r6"),
                load_at(0, 30, 7, "v00000000"),
                store_at(0, 31, 7, 1, "r4"),
                store_at(0, 30, 7, 1, "r4"),
                load_at(0, 31, 8, "r3"),
                load_at(0, 32, 7, "r3"),
                load_at(16, 31, 7, "r3"),
                load_at(15, 31, 7, "vfedcba98"),
            ],
        },
    ];
    examples.extend(bare_owners());
    examples.extend(letters());
    examples
}

/// Board 1 has all tokens of a rack of T = 3, with these lines behind.
fn lent(lines: Vec<Line>) -> Vec<Line> {
    [vec![whole(0, 1, "ok"), deliver("d1.0")], lines].into_iter().flatten().collect()
}

/// Owners that go home without data, and those that may not, by document 02's No. 2.
fn bare_owners() -> Vec<Example> {
    let rack = |name, lines| Example { name, sizes: (2, 1, 3), opening: "ok", lines };
    // 64 messages of block 1 in flight, board 1 with block 0.
    let full = |lines: Vec<Line>, says| {
        let mut all = vec![send(0, 0, 1, 63, true, true, "ok"), deliver("d1.0")];
        all.extend(lines);
        all.extend((0..63).map(|_| send(0, 1, 2, 1, false, false, "ok")));
        all.extend([send(0, 1, 2, 0, true, true, "ok"), bare(1, 0, 63, says), bare(1, 2, 63, "r12")]);
        all
    };
    vec![
        rack(
            BARE_RETURN,
            lent(vec![
                store_at(1, 0, 0, 7, "ok"),
                bare(1, 0, 2, "r12"),
                whole(1, 0, "ok"),
                deliver("d0.0"),
                whole(0, 2, "ok"),
                deliver("d2.0"),
                load(2, "v00000007"),
                bare(2, 1, 2, "r12"),
                bytes("12 00 18 01 00 01 02 02 00 01 00 05 00 01 00 06 00 01 02 07 00 01 01 08 00 01 00", "ok"),
                load(2, "r5"),
                deliver("d0.0"),
                send(0, 0, 1, 1, false, true, "ok"),
                deliver("d1.0"),
                load(1, "v00000007"),
            ]),
        ),
        // A store of the value that is there makes the owner dirty, and words that home has do not make it clean.
        rack(BARE_DIRTY, lent(vec![store_at(1, 0, 0, 0, "ok"), bare(1, 0, 2, "r12")])),
        rack(
            "bare, with home's words current",
            lent(vec![store(1, "ok"), send(1, 0, 0, 1, false, true, "ok"), deliver("d0.0"), load(0, "v00000001"), bare(1, 0, 1, "r12")]),
        ),
        rack(BARE_ALONE, lent(vec![bare(1, 0, 0, "ok"), load(1, "v00000000"), deliver("d0.0"), load(0, "v00000000")])),
        rack("bare beside one", lent(vec![bare(1, 0, 1, "ok"), load(1, "v00000000"), deliver("d0.0"), load(0, "v00000000")])),
        rack("bare beside all", lent(vec![bare(1, 0, 2, "ok"), load(1, "r5"), deliver("d0.0"), load(0, "v00000000")])),
        rack("bare over two boards", lent(vec![whole(1, 2, "ok"), deliver("d2.0"), bare(2, 0, 2, "ok"), deliver("d0.0")])),
        rack(
            BARE_HOME_LOADS,
            lent(vec![
                store_at(1, 0, 0, 7, "ok"),
                whole(1, 0, "ok"),
                deliver("d0.0"),
                whole(0, 2, "ok"),
                deliver("d2.0"),
                load(0, "r5"),
                bare(2, 0, 1, "ok"),
                load(0, "r5"),
                deliver("d0.0"),
                load(0, "v00000007"),
                load(2, "v00000007"),
                send(2, 0, 0, 1, false, false, "ok"),
                deliver("d0.0"),
                whole(0, 1, "ok"),
                deliver("d1.0"),
                bare(1, 0, 0, "ok"),
                deliver("d0.0"),
                load(0, "v00000007"),
            ]),
        ),
        rack(
            BARE_CLAIMED,
            lent(vec![raise(2, "ok"), bare(1, 0, 2, "r9"), forward(1, "ok"), deliver("d2.0"), lower(2, "ok"), bare(2, 0, 2, "ok")]),
        ),
        rack(
            "bare, claimed and dirty",
            lent(vec![store(1, "ok"), raise(2, "ok"), forward(1, "ok"), deliver("d2.0"), lower(2, "ok"), bare(2, 0, 2, "r12")]),
        ),
        Example { name: BARE_FULL, sizes: (2, 2, 64), opening: "ok", lines: full(Vec::new(), "r13") },
        Example { name: "bare, full and dirty", sizes: (2, 2, 64), opening: "ok", lines: full(vec![store(1, "ok")], "r12") },
    ]
}

/// Letters, E and M above all, by document 02's No. 4.
fn letters() -> Vec<Example> {
    let rack = |name, lines| Example { name, sizes: (2, 1, 3), opening: "ok", lines };
    vec![
        rack(
            "E, then M, then E again, then O and S, then E",
            vec![
                shows(1, "I"),
                shows(2, "I"),
                whole(0, 1, "ok"),
                shows(1, "I"),
                deliver("d1.0"),
                shows(1, "E"),
                shows(2, "I"),
                store(1, "ok"),
                shows(1, "M"),
                whole(1, 0, "ok"),
                shows(1, "I"),
                deliver("d0.0"),
                whole(0, 1, "ok"),
                deliver("d1.0"),
                shows(1, "E"),
                send(1, 0, 2, 1, false, true, "ok"),
                shows(1, "O"),
                deliver("d2.0"),
                shows(1, "O"),
                shows(2, "S"),
                send(2, 0, 1, 1, false, false, "ok"),
                deliver("d1.0"),
                shows(1, "E"),
                shows(2, "I"),
            ],
        ),
        rack(
            "E, then a load, then a store of the value that is there",
            lent(vec![load(1, "v00000000"), shows(1, "E"), store_at(1, 0, 0, 0, "ok"), shows(1, "M")]),
        ),
        Example {
            name: "E and M with T = 1",
            sizes: (1, 1, 1),
            opening: "ok",
            lines: vec![
                shows(1, "I"),
                send(0, 0, 1, 0, true, true, "ok"),
                shows(1, "I"),
                deliver("d1.0"),
                shows(1, "E"),
                store(1, "ok"),
                shows(1, "M"),
                send(1, 0, 0, 0, true, true, "ok"),
                shows(1, "I"),
                deliver("d0.0"),
                send(0, 0, 1, 0, true, true, "ok"),
                deliver("d1.0"),
                shows(1, "E"),
                shows(0, "r4"),
            ],
        },
        rack("I with a token and no data", vec![send(0, 0, 1, 1, false, false, "ok"), deliver("d1.0"), shows(1, "I")]),
        rack(
            "I, then O, with all but one",
            vec![
                send(0, 0, 1, 1, false, false, "ok"),
                deliver("d1.0"),
                shows(1, "I"),
                send(0, 0, 1, 0, true, true, "ok"),
                deliver("d1.0"),
                shows(1, "O"),
                send(0, 0, 1, 1, false, false, "ok"),
                deliver("d1.0"),
                shows(1, "E"),
            ],
        ),
        rack(
            "S with all but the owner",
            vec![
                send(0, 0, 1, 2, false, true, "ok"),
                deliver("d1.0"),
                shows(1, "S"),
                send(0, 0, 1, 0, true, true, "ok"),
                deliver("d1.0"),
                shows(1, "E"),
            ],
        ),
        // O does not tell the marks apart; they are there all the same.
        rack(
            "O of a dirty owner",
            lent(vec![
                store(1, "ok"),
                send(1, 0, 2, 1, false, true, "ok"),
                deliver("d2.0"),
                shows(1, "O"),
                shows(2, "S"),
                send(2, 0, 1, 1, false, true, "ok"),
                deliver("d1.0"),
                shows(1, "M"),
                shows(2, "I"),
            ]),
        ),
        rack(
            "E home bare and back",
            lent(vec![
                shows(1, "E"),
                bare(1, 0, 2, "ok"),
                shows(1, "I"),
                deliver("d0.0"),
                whole(0, 1, "ok"),
                deliver("d1.0"),
                shows(1, "E"),
                bare(1, 0, 0, "ok"),
                shows(1, "S"),
                deliver("d0.0"),
                send(0, 0, 1, 0, true, true, "ok"),
                deliver("d1.0"),
                shows(1, "E"),
                store(1, "ok"),
                bare(1, 0, 2, "r12"),
                shows(1, "M"),
            ]),
        ),
        rack(
            "E over two boards, then M, and M back",
            lent(vec![
                whole(1, 2, "ok"),
                deliver("d2.0"),
                shows(1, "I"),
                shows(2, "E"),
                store(2, "ok"),
                shows(2, "M"),
                whole(2, 1, "ok"),
                deliver("d1.0"),
                shows(1, "M"),
                shows(2, "I"),
            ]),
        ),
        rack(
            "E forwarded",
            lent(vec![
                raise(2, "ok"),
                shows(1, "E"),
                forward(1, "ok"),
                shows(1, "I"),
                deliver("d2.0"),
                shows(2, "E"),
                lower(2, "ok"),
                shows(2, "E"),
            ]),
        ),
        rack("M forwarded", lent(vec![store(1, "ok"), raise(2, "ok"), forward(1, "ok"), shows(1, "I"), deliver("d2.0"), shows(2, "M")])),
        // 3 before 4, and 2 before both. A number that is cut to a byte, or to two, would be one on the rack.
        rack(
            "letters refused",
            lent(vec![
                shows(1, "E"),
                shows(0, "r4"),
                shows(3, "r3"),
                Line::Letter(1, 1, "r3"),
                Line::Letter(0, 1, "r3"),
                shows(256, "r3"),
                shows(257, "r3"),
                shows(258, "r3"),
                shows(65_537, "r3"),
                shows(u32::MAX, "r3"),
                Line::Letter(1, 256, "r3"),
                Line::Letter(1, 65_536, "r3"),
                Line::ShortLetter(1, 0, "r2"),
                Line::ShortLetter(0, 0, "r2"),
                Line::ShortLetter(3, 0, "r2"),
                Line::ShortLetter(1, 1, "r2"),
            ]),
        ),
        // The mark is that of this board and this block.
        Example {
            name: "E beside M, on the largest rack",
            sizes: (15, 32, 64),
            opening: "ok",
            lines: vec![
                send(0, 31, 15, 63, true, true, "ok"),
                send(0, 30, 15, 63, true, true, "ok"),
                send(0, 0, 1, 63, true, true, "ok"),
                deliver("d15.31"),
                deliver("d15.30"),
                deliver("d1.0"),
                store_at(15, 30, 7, 1, "ok"),
                Line::Letter(15, 31, "E"),
                Line::Letter(15, 30, "M"),
                Line::Letter(1, 0, "E"),
                store_at(1, 0, 0, 1, "ok"),
                Line::Letter(15, 31, "E"),
                Line::Letter(1, 0, "M"),
                Line::Letter(1, 31, "I"),
                Line::Letter(15, 0, "I"),
                Line::Letter(14, 31, "I"),
                Line::Letter(15, 29, "I"),
                Line::Letter(16, 31, "r3"),
                Line::Letter(15, 32, "r3"),
                Line::Letter(0, 31, "r4"),
            ],
        },
    ]
}
