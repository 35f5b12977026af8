//! What is measured: engines on bytes of their own layout.

use crate::rows::Row;
use second::calls::{Layout, LAYOUTS};
use second::model::{self, Owner, Rack, Refusal, Step, HOME};
use second::{best, engine, reply, tuned};

pub struct Engine {
    pub name: &'static str,
    pub layout: &'static Layout,
    pub step: fn(&mut [u8], &[u8]) -> u64,
    pub run: fn(&mut [u8], &[u8], &mut usize, &mut [u64]) -> usize,
    pub letter: fn(&[u8], u32, u32) -> u64,
    /// Whether an accepted deliver says whom it served. In an archive from before it gives done.
    pub serves: bool,
    /// Whether a load at home is as one at a board. In an archive from before it gives 4.
    pub reads_home: bool,
    /// Whether a clean owner may go home bare. In an archive from before it gives 12, and a record has no marks.
    pub takes_bare: bool,
    /// Whether a board with all tokens shows E while the owner is clean. In an archive from before it shows M.
    pub shows_e: bool,
}

impl Engine {
    fn new(
        name: &'static str,
        length: u64,
        step: fn(&mut [u8], &[u8]) -> u64,
        run: fn(&mut [u8], &[u8], &mut usize, &mut [u64]) -> usize,
        letter: fn(&[u8], u32, u32) -> u64,
    ) -> Engine {
        let layout = layout_of(length);
        let given = |rack: &Rack, asked: Step| step(&mut encoded(rack, layout), &model::write(asked));
        let refuses = |rack: &Rack, asked: Step, refusal: Refusal| given(rack, asked) == reply::refused(refusal);
        let mut rack = Rack::open(1, 1, 1).expect("sizes in range");
        let reads_home = !refuses(&rack, Step::Load { component: HOME, block: 0, word: 0 }, Refusal::Home);
        rack.step(Step::Send { component: HOME, block: 0, target: 1, plain: 0, owner: true, data: true }).expect("home has the owner");
        let serves = given(&rack, Step::Deliver { position: 0 }) != reply::done(0);
        rack.step(Step::Deliver { position: 0 }).expect("the owner is in flight");
        let shows_e = letter(&encoded(&rack, layout), 1, 0) != reply::letter('M');
        let bare = Step::Send { component: 1, block: 0, target: HOME, plain: 0, owner: true, data: false };
        let takes_bare = !refuses(&rack, bare, Refusal::BareOwner);
        Engine { name, layout, step, run, letter, serves, reads_home, takes_bare, shows_e }
    }

    /// The record of a rack in its bytes. For an archive from before there were marks, a record with one is not sound: every owner is clean
    /// there.
    pub fn encoded(&self, rack: &Rack) -> Vec<u8> {
        if self.takes_bare {
            return encoded(rack, self.layout);
        }
        let mut rack = rack.clone();
        let cells = rack.blocks.iter_mut().flat_map(|block| &mut block.cells).map(|cell| &mut cell.owner);
        for owner in cells.chain(rack.mesh.iter_mut().map(|message| &mut message.owner)).filter(|owner| owner.here()) {
            *owner = Owner::Clean;
        }
        encoded(&rack, self.layout)
    }

    /// Whether its replies are these, or what an archive from before gives in their place: done where a deliver says whom it served, and 4
    /// for a load at home. A word, 5 or 6 does not tell where a load was, nor 5 and 6 a load from a forward or a send: 4 is taken for any
    /// of them. Where it gives 12 for an owner that goes home bare, its rack is another one from then on, and the replies behind are not
    /// compared. It shows M for E.
    pub fn agrees(&self, replies: &[u64], want: &[u64]) -> bool {
        let load = |reply: u64| reply >> 56 == 2 || [Refusal::NoToken, Refusal::NoData].map(reply::refused).contains(&reply);
        let same = |reply: u64, want: u64| match want >> 56 {
            4 if !self.serves => reply == reply::done(0),
            3 if !self.shows_e && want == reply::letter('E') => reply == reply::letter('M'),
            _ => reply == want || !self.reads_home && load(want) && reply == reply::refused(Refusal::Home),
        };
        let parts = |(&reply, &want)| !self.takes_bare && want == reply::done(0) && reply == reply::refused(Refusal::BareOwner);
        let mut compared = replies.iter().zip(want).take_while(|&both| !parts(both));
        replies.len() == want.len() && compared.all(|(&reply, &want)| same(reply, want))
    }
}

/// The engine first; where build.rs was told of another archive, that is the second.
pub fn all() -> Vec<Engine> {
    let mut all = vec![Engine::new("engine", engine::record_len(1), engine::step, engine::run, engine::letter)];
    #[cfg(other)]
    {
        use second::engine::other;
        all.push(Engine::new("other engine", other::record_len(1), other::step, other::run, other::letter));
    }
    all.push(Engine::new("tuned", tuned::record_len(1), tuned::step, tuned::run, tuned::letter));
    all.push(Engine::new("best", best::record_len(1), best::step, best::run, best::letter));
    for engine in all.iter().filter(|engine| !engine.serves) {
        println!("For an accepted deliver {} gives done, where the others say whom it served.", engine.name);
        println!();
    }
    for engine in all.iter().filter(|engine| !engine.reads_home) {
        println!("For a load at home {} gives 4, where the others answer it as at a board.", engine.name);
        println!();
    }
    for engine in all.iter().filter(|engine| !engine.takes_bare) {
        println!(
            "For an owner that goes home bare {} gives 12, where the others take it; what it does behind that is not the same.",
            engine.name
        );
        println!();
    }
    for engine in all.iter().filter(|engine| !engine.shows_e) {
        println!("For a board with all tokens and a clean owner {} shows M, where the others show E.", engine.name);
        println!();
    }
    all
}

/// The record of a rack in the bytes of a layout.
fn encoded(rack: &Rack, layout: &Layout) -> Vec<u8> {
    let mut bytes = vec![0; (layout.length)(rack.blocks.len())];
    (layout.encode)(rack, &mut bytes);
    bytes
}

/// The layout in which the record of one block is so long.
fn layout_of(length: u64) -> &'static Layout {
    LAYOUTS.iter().find(|layout| (layout.length)(1) as u64 == length).expect("a layout that is known here")
}

/// Records as they are before the first step, and those that the steps change.
pub struct Records {
    fresh: Vec<Vec<u8>>,
    pub used: Vec<Vec<u8>>,
}

impl Records {
    /// The records of a row in the bytes of an engine.
    pub fn new(row: &Row, engine: &Engine) -> Records {
        let fresh: Vec<Vec<u8>> = row.works.iter().map(|work| engine.encoded(&work.rack)).collect();
        Records { used: fresh.clone(), fresh }
    }

    pub fn renew(&mut self) {
        for (used, fresh) in self.used.iter_mut().zip(&self.fresh) {
            used.copy_from_slice(fresh);
        }
    }
}
