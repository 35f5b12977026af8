//! The Hyaloneth engine for hosts in Rust: a safe wrapper over the proved library's C interface
//! (`include/hyaloneth.h`).
//!
//! The engine keeps the memory of a rack's boards coherent by Token Coherence. All its state is the
//! record, bytes at the front of a buffer that the host lends: [`Record`]. A policy hands in
//! [`Step`]s and gets a [`Reply`] or a [`Refusal`] for each: the word of a load, whom a deliver
//! served. A refused call changes nothing. The engine looks at everything anew at each call, so no
//! input can bring it out of step: an unsound record, a torn step and a number such as 258 are
//! refused.
//!
//! [`View`] reads the figures of a record, and [`script`] is the readable form of step records that
//! the program `hyaloneth-trace` speaks. The owner token of a block is clean or dirty, which the view
//! tells too: a clean owner may go home without the words. [`Owner`] shows it.
//! [`Letter`] is what a display shows of a board and a block.
//!
//! ```
//! use hyaloneth::{Letter, Record, Refusal, Reply, Step};
//!
//! # fn main() -> Result<(), Refusal> {
//! // Two boards, one block, three tokens: home has them all.
//! let mut buffer = vec![0; Record::len_for(1)?];
//! let mut rack = Record::open(&mut buffer, 2, 1, 3)?;
//!
//! // Board 1 gets all tokens with the data, so it may store.
//! rack.step(&Step::Send { component: 0, block: 0, target: 1, plain: 2, owner: true, data: true })?;
//! let reply = rack.step(&Step::Deliver { position: 0 })?;
//! assert_eq!(reply, Reply::Served { component: 1, block: 0 });
//! assert_eq!(rack.letter(1, 0), Ok(Letter::Exclusive));
//! rack.step(&Step::Store { component: 1, block: 0, word: 0, value: 42 })?;
//! assert_eq!(rack.letter(1, 0), Ok(Letter::Modified));
//! assert_eq!(rack.step(&Step::Load { component: 1, block: 0, word: 0 }), Ok(Reply::Word(42)));
//!
//! // Board 2 has no token.
//! assert_eq!(rack.step(&Step::Load { component: 2, block: 0, word: 0 }), Err(Refusal::NoToken));
//! # Ok(())
//! # }
//! ```

#![deny(missing_docs)]

mod answer;
mod ffi;
mod record;
mod refusal;
pub mod script;
mod step;
mod view;

pub use answer::{Answer, Letter, Reply};
pub use record::Record;
pub use refusal::Refusal;
pub use step::Step;
pub use view::{Boards, Cell, Message, Messages, Owner, View};
