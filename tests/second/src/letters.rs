//! What lists met of the state letters: which a rack showed, and at which an engine would be seen that tells them apart by something else.

use crate::model::{Owner, Rack, Reply, Step, HOME, WORDS};
use crate::owners::Look;

/// The letters that a board can show, and each as one number: by hand, so that no program's packing is taken for granted.
pub const LETTERS: [&str; 5] = ["M", "O", "E", "S", "I"];
const PACKED: [u64; LETTERS.len()] =
    [0x0300_0000_0000_004d, 0x0300_0000_0000_004f, 0x0300_0000_0000_0045, 0x0300_0000_0000_0053, 0x0300_0000_0000_0049];

/// Which of `LETTERS` a result is, if it is one.
pub fn place(result: u64) -> Option<usize> {
    PACKED.iter().position(|&packed| packed == result)
}

/// Which of `LETTERS` a rack can show: with T = 1 a board has all or nothing, so neither O nor S.
pub fn possible(tokens: u32) -> [bool; LETTERS.len()] {
    LETTERS.map(|letter| tokens > 1 || !["O", "S"].contains(&letter))
}

// ---- letters as they are asked

/// Letters at which an engine would be seen that goes by something else than the mark of this owner, or by the mark where tokens are missing.
pub const SORTS: [&str; 11] = [
    "E with T = 1",
    "M with T = 1",
    "E of words that are not all 0",
    "M of the words that home has",
    "E at a board with a dirty owner of another block",
    "M at a board with a clean owner of another block",
    "O of a clean owner",
    "O of a dirty owner",
    "O of a clean owner with all but one token",
    "S with all but the owner",
    "I with all but the owner",
];

/// Which of `SORTS` it is that a board showed this letter of a block.
pub fn sorts(rack: &Rack, component: u32, block: u32, letter: &str) -> [bool; SORTS.len()] {
    let (component, number) = (component as usize, block as usize);
    let block = &rack.blocks[number];
    let cell = &block.cells[component];
    let [m, o, e, s, i] = LETTERS.map(|one| one == letter);
    let beside = |owner: Owner| (0..).zip(&rack.blocks).any(|(i, block)| i != number && block.cells[component].owner == owner);
    let but_one = cell.held() + 1 == rack.tokens;
    [
        e && rack.tokens == 1,
        m && rack.tokens == 1,
        e && cell.words != [0; WORDS],
        m && cell.words == block.cells[usize::from(HOME)].words,
        e && beside(Owner::Dirty),
        m && beside(Owner::Clean),
        o && cell.owner == Owner::Clean,
        o && cell.owner == Owner::Dirty,
        o && cell.owner == Owner::Clean && but_one,
        s && but_one,
        i && but_one && cell.plain > 0,
    ]
}

// ---- letters that a step changes

/// Steps by which a board comes to show E or M, or shows E no longer. Behind each the letters of its block are asked.
pub const CHANGED: [&str; 5] = [
    "E by a delivery",
    "M by a delivery",
    "M by a store, E before",
    "M by a store of the value that was there, E before",
    "E given home bare",
];

/// Which of `CHANGED` a step is, by its reply.
pub fn changed(look: &Look, step: Step, reply: Reply) -> [bool; CHANGED.len()] {
    let Look { cell, message, tokens, .. } = look;
    let clean = cell.owner == Owner::Clean;
    // what a delivery to a board makes of it
    let brought = message.as_ref().filter(|message| reply.is_ok() && message.target != HOME);
    let by_delivery =
        |owner| brought.is_some_and(|message| cell.held() + message.carried() == *tokens && [cell.owner, message.owner].contains(&owner));
    let stored = match step {
        Step::Store { word, value, .. } if reply.is_ok() && clean => Some(cell.words[usize::from(word)] == value),
        _ => None,
    };
    let bare = matches!(step, Step::Send { owner: true, data: false, .. });
    [
        by_delivery(Owner::Clean),
        by_delivery(Owner::Dirty),
        stored.is_some(),
        stored == Some(true),
        bare && reply.is_ok() && cell.held() == *tokens,
    ]
}
