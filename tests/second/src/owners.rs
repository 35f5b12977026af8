//! What a comparison met of the owner's mark: in lists, where owners go home bare and their words are loaded later, and in damaged records.

use crate::calls::sound_rack;
use crate::layout::{
    block_offset, message_offset, BLOCKS, COUNT, DATA, DIRTY, MESH_ROOM, MESSAGE_DIRTY, MESSAGE_OWNER, OWNER, PLACES, TARGET,
};
use crate::model::{Answer, Cell, Message, Owner, Rack, Refusal, Reply, Step, HOME, MESH_LIMIT};
use crate::record;

// ---- lists

/// Steps of lists at which an engine would be seen that marks the owner wrongly, or takes or refuses the wrong ones of those that go bare.
pub const MET: [&str; 17] = [
    "clean owner home bare, without a plain token",
    "clean owner home bare, the sender keeping tokens and valid",
    "clean owner home bare, with all that the sender has",
    "dirty owner home bare: 12",
    "clean owner to a board bare: 12",
    "clean owner home bare, mesh full: 13",
    "dirty owner home bare, mesh full: 12",
    "bare owner to home that is not valid",
    "bare owner to home that is valid",
    "dirty owner to home with data",
    "dirty owner to a board",
    "clean owner to a board",
    "load at home after a bare return",
    "load at a board of words that home kept over a bare return",
    "owner home bare after stores of what was there: 12",
    "forward of a dirty owner",
    "forward of a clean owner",
];

/// What a step is about, as it is before the step.
pub struct Look {
    /// What the component of the step has of its block; of a delivery, the target.
    pub(crate) cell: Cell,
    /// The message that a delivery takes.
    pub(crate) message: Option<Message>,
    full: bool,
    /// The rack's T.
    pub(crate) tokens: u32,
}

impl Look {
    pub fn new(rack: &Rack, step: Step) -> Look {
        let mut message = None;
        let (component, block) = match step {
            Step::Load { component, block, .. } | Step::Store { component, block, .. } | Step::Send { component, block, .. } => {
                (component, block)
            }
            Step::Raise { component, block } | Step::Lower { component, block } | Step::Forward { component, block } => (component, block),
            Step::Deliver { position } => {
                message = rack.mesh.get(usize::from(position)).cloned();
                message.as_ref().map_or((HOME, 0), |message| (message.target, message.block))
            }
        };
        let cell = rack.blocks.get(usize::from(block)).and_then(|block| block.cells.get(usize::from(component)));
        Look { cell: cell.cloned().unwrap_or_default(), message, full: rack.mesh.len() == MESH_LIMIT, tokens: rack.tokens }
    }
}

/// Where words are that home kept while their owner was away and came back bare, and which owners are dirty by stores that changed no word.
pub struct Trail {
    /// By block and component, and by message.
    cells: Vec<Vec<bool>>,
    mesh: Vec<bool>,
    /// By block.
    unchanged: Vec<bool>,
}

impl Trail {
    pub fn new(rack: &Rack) -> Trail {
        let cells = rack.blocks.iter().map(|block| vec![false; block.cells.len()]).collect();
        Trail { cells, mesh: Vec::new(), unchanged: vec![false; rack.blocks.len()] }
    }

    /// Which of `MET` a step is, by its reply; an accepted one is followed.
    pub fn step(&mut self, look: &Look, step: Step, reply: Reply) -> [bool; MET.len()] {
        let met = self.met(look, step, reply);
        if reply.is_ok() {
            self.follow(look, step);
        }
        met
    }

    fn met(&self, look: &Look, step: Step, reply: Reply) -> [bool; MET.len()] {
        let Look { cell, message, full, .. } = look;
        let (clean, dirty) = (cell.owner == Owner::Clean, cell.owner == Owner::Dirty);
        // a send of the owner without data
        let bare = match step {
            Step::Send { block, target, plain, owner: true, data: false, .. } => Some((block, target, u32::from(plain))),
            _ => None,
        };
        let taken = |fits: fn(u32, u32) -> bool| reply.is_ok() && bare.is_some_and(|(_, _, plain)| fits(plain, cell.plain));
        let refused = |refusal| bare.is_some() && reply == Err(refusal);
        let dirty_home = refused(Refusal::BareOwner) && dirty && bare.is_some_and(|(_, target, _)| target == HOME);
        let brought = |owner, home| message.as_ref().is_some_and(|m| m.owner == owner && (m.target == HOME) == home);
        let bare_brought = message.as_ref().is_some_and(Message::bare);
        let kept = match step {
            // a word of 0 would be given without the return too
            Step::Load { component, block, .. } if reply.is_ok() && reply != Ok(Answer::Word(0)) => {
                self.cells[usize::from(block)][usize::from(component)].then_some(component)
            }
            _ => None,
        };
        let forward = matches!(step, Step::Forward { .. }) && reply.is_ok();
        [
            taken(|plain, _| plain == 0),
            taken(|plain, held| plain < held) && cell.valid,
            taken(|plain, held| plain == held && plain > 0),
            dirty_home,
            refused(Refusal::BareOwner) && clean,
            refused(Refusal::MeshFull),
            dirty_home && *full,
            bare_brought && !cell.valid,
            bare_brought && cell.valid,
            brought(Owner::Dirty, true),
            brought(Owner::Dirty, false),
            brought(Owner::Clean, false),
            kept == Some(HOME),
            kept.is_some_and(|component| component != HOME),
            dirty_home && bare.is_some_and(|(block, _, _)| self.unchanged[usize::from(block)]),
            forward && dirty,
            forward && clean,
        ]
    }

    /// Where the words go with an accepted step.
    fn follow(&mut self, look: &Look, step: Step) {
        match step {
            Step::Store { component, block, word, value } => {
                let block = usize::from(block);
                self.cells[block][usize::from(component)] = false;
                let first = look.cell.owner == Owner::Clean;
                self.unchanged[block] = (first || self.unchanged[block]) && look.cell.words[usize::from(word)] == value;
            }
            Step::Send { component, block, data, .. } => self.mesh.push(data && self.cells[usize::from(block)][usize::from(component)]),
            Step::Forward { component, block } => {
                self.mesh.push(look.cell.valid && self.cells[usize::from(block)][usize::from(component)]);
            }
            Step::Deliver { position } => {
                let kept = self.mesh.remove(position.into());
                if let Some(message) = look.message.as_ref().filter(|message| message.data || message.bare()) {
                    self.cells[usize::from(message.block)][usize::from(message.target)] = kept || message.bare();
                }
            }
            Step::Load { .. } | Step::Raise { .. } | Step::Lower { .. } => {}
        }
    }
}

// ---- damaged records

const CELL_ABOVE: &str = "mark above 1 of a component";
const MESSAGE_ABOVE: &str = "mark above 1 of a message";
const CELL_ALONE: &str = "mark of a component without the owner";
const MESSAGE_ALONE: &str = "mark of a message without the owner";
const DIRTY_BARE: &str = "dirty owner for home without data";
const CLEAN_BARE: &str = "clean owner for a board without data";
const CELL_OTHER: &str = "sound with another mark of a component";
const MESSAGE_OTHER: &str = "sound with another mark of a message";

/// Damaged records at which an engine would be seen that takes a wrong mark, or refuses a right one. All but the last two are refused, and
/// would be sound without this one fault; the last two are sound, with another mark than before the damage.
pub const DAMAGED: [&str; 8] = [CELL_ABOVE, MESSAGE_ABOVE, CELL_ALONE, MESSAGE_ALONE, DIRTY_BARE, CLEAN_BARE, CELL_OTHER, MESSAGE_OTHER];

/// Which of `DAMAGED` a record is that had this rack before.
pub fn damaged(before: &Rack, record: &[u8]) -> [bool; DAMAGED.len()] {
    let met = match sound_rack(record) {
        Ok(rack) => others(before, &rack),
        Err(_) => {
            let mut repaired = record.to_vec();
            let faults = faults(&mut repaired);
            if faults.len() == 1 && sound_rack(&repaired).is_ok() {
                faults
            } else {
                Vec::new()
            }
        }
    };
    DAMAGED.map(|sort| met.contains(&sort))
}

/// Whether owners are there before and after, with another mark.
fn others(before: &Rack, after: &Rack) -> Vec<&'static str> {
    let cells = |rack: &Rack| rack.blocks.iter().flat_map(|block| &block.cells).map(|cell| cell.owner).collect::<Vec<Owner>>();
    let mesh = |rack: &Rack| rack.mesh.iter().map(|message| message.owner).collect::<Vec<Owner>>();
    let other = |kept: Vec<Owner>, found: Vec<Owner>| kept.iter().zip(&found).any(|(a, b)| a.here() && b.here() && a != b);
    let found = [(CELL_OTHER, other(cells(before), cells(after))), (MESSAGE_OTHER, other(mesh(before), mesh(after)))];
    found.into_iter().filter(|(_, met)| *met).map(|(sort, _)| sort).collect()
}

/// The faults of marks that a record has; they are repaired.
fn faults(record: &mut [u8]) -> Vec<&'static str> {
    let mut faults = Vec::new();
    let Some(&blocks) = record.get(BLOCKS) else { return faults };
    if record.len() < record::length(blocks.into()) {
        return faults;
    }
    for i in 0..usize::from(record[COUNT]).min(MESH_ROOM) {
        let message = &mut record[message_offset(i)..];
        let fault = match (message[MESSAGE_OWNER], message[MESSAGE_DIRTY], message[DATA]) {
            (_, 2.., _) => MESSAGE_ABOVE,
            (0, 1, _) => MESSAGE_ALONE,
            (1, 1, 0) if message[TARGET] == HOME => DIRTY_BARE,
            (1, 0, 0) if message[TARGET] != HOME => {
                message[DATA] = 1;
                CLEAN_BARE
            }
            _ => continue,
        };
        message[MESSAGE_DIRTY] = 0;
        faults.push(fault);
    }
    for block in 0..blocks.into() {
        for at in (0..PLACES).map(|component| block_offset(block) + component) {
            let fault = match (record[at + OWNER], record[at + DIRTY]) {
                (_, 2..) => CELL_ABOVE,
                (0, 1) => CELL_ALONE,
                _ => continue,
            };
            record[at + DIRTY] = 0;
            faults.push(fault);
        }
    }
    faults
}
