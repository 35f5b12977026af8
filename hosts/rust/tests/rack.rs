//! The examples of document 01, loads at home, bare owners, state letters, and the edges of the
//! wrapper, over the proved archives.

use hyaloneth::script::reply_text;
use hyaloneth::Refusal::*;
use hyaloneth::Step::*;
use hyaloneth::{Answer, Letter, Owner, Record, Refusal, Reply, Step, View};

/// A rack that owns its buffer; unless said, N = 2, B = 1, T = 3.
struct Rack(Vec<u8>);

impl Rack {
    fn new() -> Rack {
        Rack::of(2, 1, 3)
    }

    fn of(boards: u32, blocks: u32, tokens: u32) -> Rack {
        let mut buffer = vec![0xa5; Record::len_for(blocks).unwrap()];
        Record::open(&mut buffer, boards, blocks, tokens).unwrap();
        Rack(buffer)
    }

    fn record(&mut self) -> Record<'_> {
        Record::over(&mut self.0)
    }

    fn step(&mut self, step: Step) -> Result<Reply, Refusal> {
        self.record().step(&step)
    }

    fn done(&mut self, step: Step) {
        assert_eq!(self.step(step), Ok(Reply::Done), "{step}");
    }

    /// The deliver is accepted and has served this component with block 0.
    fn served(&mut self, deliver: Step, component: u32) {
        assert_eq!(self.step(deliver), Ok(Reply::Served { component, block: 0 }), "{deliver}");
    }

    /// The step gives this, by itself and as a list, and no byte of the buffer changes.
    fn unchanged(&mut self, step: Step, answer: Result<Reply, Refusal>) {
        let before = self.0.clone();
        assert_eq!(self.step(step), answer, "{step}");
        assert_eq!(self.0, before, "{step}");
        // A number outside its field has no bytes.
        if let Ok(list) = step.to_bytes() {
            let mut answers = Vec::new();
            self.record().run(&list, |answer| answers.push(answer));
            assert_eq!(answers, [answer], "{step}");
            assert_eq!(self.0, before, "{step}");
        }
    }

    fn refused(&mut self, step: Step, refusal: Refusal) {
        self.unchanged(step, Err(refusal));
    }

    fn loaded(&mut self, load: Step, word: u32) {
        self.unchanged(load, Ok(Reply::Word(word)));
    }

    /// What a component has of block 0's owner.
    fn owner(&mut self, component: u32) -> Owner {
        self.record().view().unwrap().cell(component, 0).unwrap().owner
    }

    fn letter(&mut self, board: u32) -> Result<Letter, Refusal> {
        self.record().letter(board, 0)
    }

    /// Boards 1 and up show these letters of block 0. What follows from a letter is tried on a copy:
    /// a store is accepted at M and E alone, and leaves M; the whole block goes home bare from E and
    /// not from M.
    fn shows(&mut self, letters: &str) {
        for (board, char) in (1..).zip(letters.chars()) {
            let letter = self.letter(board).unwrap();
            assert_eq!(letter.char(), char, "board {board} of {letters}");
            let record = self.record();
            let view = record.view().unwrap();
            assert_eq!(view.letter(board, 0), Some(letter));
            assert_eq!(letter.may_store(), view.cell(board, 0).unwrap().held() == view.tokens());
            let (plain, claimed) = (view.tokens() - 1, view.active(0).is_some());

            let mut copy = Rack(self.0.clone());
            if !letter.may_store() {
                copy.refused(store(board), Short);
                continue;
            }
            let bare = send(board, 0, plain, true, false);
            match letter {
                _ if claimed => copy.refused(bare, Claimed),
                Letter::Exclusive => {
                    copy.done(bare);
                    copy = Rack(self.0.clone());
                }
                _ => copy.refused(bare, BareOwner),
            }
            copy.done(store(board));
            assert_eq!(copy.letter(board), Ok(Letter::Modified));
        }
    }

    /// All of block 0 goes from a component that holds it to another, with the words.
    fn move_all(&mut self, component: u32, target: u32) {
        let plain = self.record().view().unwrap().tokens() - 1;
        self.done(send(component, target, plain, true, true));
        self.served(OLDEST, target);
    }
}

fn load(component: u32) -> Step {
    Load { component, block: 0, word: 0 }
}

fn store(component: u32) -> Step {
    Store { component, block: 0, word: 0, value: 1 }
}

fn send(component: u32, target: u32, plain: u32, owner: bool, data: bool) -> Step {
    Send { component, block: 0, target, plain, owner, data }
}

fn raise(component: u32) -> Step {
    Raise { component, block: 0 }
}

fn lower(component: u32) -> Step {
    Lower { component, block: 0 }
}

fn forward(component: u32) -> Step {
    Forward { component, block: 0 }
}

const OLDEST: Step = Deliver { position: 0 };

/// W2: board 1 has the whole block.
fn w2() -> Rack {
    let mut rack = Rack::new();
    rack.done(send(0, 1, 2, true, true));
    rack.served(OLDEST, 1);
    rack
}

#[test]
fn w1_a_load_needs_a_token() {
    Rack::new().refused(load(1), NoToken);
}

#[test]
fn w2_to_w4_stores_need_all_tokens_and_loads_data() {
    let mut rack = w2();
    assert_eq!(rack.letter(1), Ok(Letter::Exclusive));
    rack.done(store(1));
    assert_eq!(rack.letter(1), Ok(Letter::Modified));

    rack.done(send(1, 2, 1, false, false));
    rack.served(OLDEST, 2);
    rack.refused(load(2), NoData);
    assert_eq!(rack.letter(2), Ok(Letter::Invalid));

    rack.refused(store(1), Short);
    assert_eq!(rack.letter(1), Ok(Letter::Owned));
    rack.loaded(load(1), 1);
}

#[test]
fn w5_to_w7_sends_that_are_refused() {
    let mut rack = Rack::new();
    rack.refused(send(0, 1, 0, true, false), BareOwner);
    rack.refused(send(0, 1, 3, false, false), NotHeld);
    rack.refused(send(0, 1, 0, false, false), Empty);
}

#[test]
fn w8_the_mesh_carries_64_messages() {
    let mut rack = Rack::of(2, 2, 64);
    for _ in 0..63 {
        rack.done(send(0, 1, 1, false, false));
    }
    rack.done(send(0, 1, 0, true, true));
    let other = Send { component: 0, block: 1, target: 1, plain: 1, owner: false, data: false };
    rack.refused(other, MeshFull);
    rack.served(OLDEST, 1);
    rack.done(other);
}

#[test]
fn w9_the_active_board_is_the_lowest() {
    let mut rack = Rack::new();
    rack.done(raise(2));
    rack.done(raise(1));
    rack.done(forward(0));
    let record = rack.record();
    let view = record.view().unwrap();
    assert_eq!(view.messages().map(|m| m.target).collect::<Vec<_>>(), [1]);
    assert_eq!(view.active(0), Some(1));
}

#[test]
fn w10_nobody_is_passed_twice() {
    let mut rack = Rack::new();
    rack.done(raise(1));
    rack.done(raise(2));
    rack.done(lower(1));
    rack.refused(raise(1), Barred);
    assert_eq!(rack.record().view().unwrap().barring(1, 0).unwrap().to_string(), "{2}");
    rack.done(lower(2));
    rack.done(raise(1));
}

#[test]
fn w11_tokens_are_at_least_the_boards() {
    let mut buffer = [0; Record::LONGEST];
    assert_eq!(Record::open(&mut buffer, 2, 1, 1).err(), Some(Size));
    assert!(Record::open(&mut buffer, 2, 1, 2).is_ok());
}

#[test]
fn the_listing_of_program_rackrun() {
    let text = "12 00 18 01 00 01 00 02 00 01 00 05 00 01 01 06 00 01 02 07 00 01 01 08 00 01 01 \
                13 00 04 09 00 01 00 \
                11 00 13 01 00 01 01 02 00 01 00 03 00 01 00 04 00 04 00 00 00 2A \
                10 00 0C 01 00 01 01 02 00 01 00 03 00 01 00 \
                10 00 0C 01 00 01 02 02 00 01 00 03 00 01 00";
    let list: Vec<u8> =
        text.split_whitespace().map(|b| u8::from_str_radix(b, 16).unwrap()).collect();
    let mut rack = Rack::new();
    let mut lines = vec!["0 ok".to_string()];
    rack.record().run(&list, |reply| {
        lines.push(format!("{} {}", lines.len(), reply_text(reply)));
    });
    assert_eq!(lines, ["0 ok", "1 ok", "2 d1.0", "3 ok", "4 v0000002a", "5 r5"]);
}

#[test]
fn the_other_refusals() {
    let mut rack = Rack::new();
    rack.refused(load(3), OffRack);
    rack.refused(Load { component: 1, block: 1, word: 0 }, OffRack);
    rack.refused(Load { component: 1, block: 0, word: 8 }, OffRack);
    rack.refused(send(0, 3, 1, false, false), OffRack);
    rack.refused(send(0, 0, 1, false, false), SelfTarget);
    rack.refused(send(1, 2, 0, true, true), NotHeld);
    rack.refused(send(0, 1, 255, false, false), NotHeld);
    rack.refused(OLDEST, NoMessage);
    rack.refused(lower(1), NotWaiting);
    rack.refused(forward(0), Unclaimed);

    rack.done(raise(1));
    rack.refused(raise(1), Waiting);
    rack.refused(forward(1), SelfTarget);
    rack.refused(forward(2), NoToken);
    rack.refused(send(0, 1, 1, false, false), Claimed);
    rack.done(forward(0));
    rack.refused(Deliver { position: 1 }, NoMessage);
    rack.served(OLDEST, 1);
    rack.refused(send(1, 2, 1, false, false), Claimed);

    let mut rack = w2();
    rack.done(send(1, 2, 1, false, false));
    rack.served(OLDEST, 2);
    rack.refused(send(2, 1, 1, false, true), NoData);
}

/// A load at home gives this, and the view says whether it is answered. Whatever home holds, stores,
/// raises, lowers and the letter there are refused with 4, before their own lines; 3 comes first.
fn at_home(rack: &mut Rack, load_gives: Result<u32, Refusal>) {
    rack.unchanged(load(0), load_gives.map(Reply::Word));
    let valid = rack.record().view().unwrap().cell(0, 0).unwrap().valid;
    assert_eq!(valid, load_gives.is_ok());
    for step in [store(0), raise(0), lower(0)] {
        rack.refused(step, Home);
    }
    assert_eq!(rack.letter(0), Err(Home));
    let component = 0;
    for step in [
        Load { component, block: 1, word: 0 },
        Load { component, block: 0, word: 8 },
        Store { component, block: 1, word: 0, value: 1 },
        Store { component, block: 0, word: 8, value: 1 },
        Raise { component, block: 1 },
        Lower { component, block: 1 },
    ] {
        rack.refused(step, OffRack);
    }
}

#[test]
fn a_load_at_home_needs_a_token_and_data() {
    let mut rack = Rack::new();
    at_home(&mut rack, Ok(0));
    rack.done(send(0, 1, 2, true, true));
    at_home(&mut rack, Err(NoToken));
    rack.served(OLDEST, 1);
    rack.done(Store { component: 1, block: 0, word: 0, value: 5 });
    rack.done(send(1, 0, 1, false, false));
    rack.served(OLDEST, 0);
    at_home(&mut rack, Err(NoData));
    rack.done(send(1, 0, 1, true, true));
    rack.served(OLDEST, 0);
    at_home(&mut rack, Ok(5));
    rack.refused(load(1), NoToken);
}

#[test]
fn a_load_at_home_gives_the_words_that_came_home() {
    let mut rack = Rack::of(2, 2, 3);
    let block = 1;
    rack.done(Raise { component: 2, block });
    // A claim stops no load.
    rack.loaded(Load { component: 0, block, word: 0 }, 0);
    rack.done(Forward { component: 0, block });
    assert_eq!(rack.step(OLDEST), Ok(Reply::Served { component: 2, block }));
    for word in 0..8 {
        rack.done(Store { component: 2, block, word, value: 100 + word });
    }
    rack.done(Lower { component: 2, block });
    rack.done(Send { component: 2, block, target: 0, plain: 1, owner: false, data: true });
    assert_eq!(rack.step(OLDEST), Ok(Reply::Served { component: 0, block }));
    for word in 0..8 {
        rack.loaded(Load { component: 0, block, word }, 100 + word);
        rack.loaded(Load { component: 2, block, word }, 100 + word);
        rack.loaded(Load { component: 0, block: 0, word }, 0);
    }
}

#[test]
fn a_store_makes_the_owner_dirty_and_a_delivery_to_home_clean() {
    let mut rack = Rack::new();
    assert_eq!(rack.owner(0), Owner::Clean);
    rack.done(send(0, 1, 2, true, true));
    rack.served(OLDEST, 1);
    assert_eq!((rack.owner(0), rack.owner(1)), (Owner::Away, Owner::Clean));
    // The value that is there already, at any word.
    rack.done(Store { component: 1, block: 0, word: 7, value: 0 });
    assert_eq!(rack.owner(1), Owner::Dirty);
    rack.refused(send(1, 0, 2, true, false), BareOwner);
    // To a board and back the mark stays; loads leave it too.
    rack.done(send(1, 2, 0, true, true));
    rack.served(OLDEST, 2);
    assert_eq!((rack.owner(1), rack.owner(2)), (Owner::Away, Owner::Dirty));
    rack.loaded(load(2), 0);
    rack.refused(send(2, 0, 0, true, false), BareOwner);
    rack.done(send(2, 0, 0, true, true));
    rack.served(OLDEST, 0);
    assert_eq!(rack.owner(0), Owner::Clean);
    // Home gives it on clean, and it may come back bare.
    rack.done(send(0, 2, 0, true, true));
    rack.served(OLDEST, 2);
    rack.done(send(2, 0, 0, true, false));
    rack.served(OLDEST, 0);
    assert_eq!(rack.owner(0), Owner::Clean);
}

#[test]
fn a_refused_store_leaves_the_owner_clean() {
    let mut rack = w2();
    rack.refused(Store { component: 1, block: 0, word: 8, value: 1 }, OffRack);
    rack.done(send(1, 2, 1, false, true));
    rack.refused(store(1), Short);
    assert_eq!(rack.owner(1), Owner::Clean);
    rack.done(send(1, 0, 1, true, false));
}

#[test]
fn a_bare_owner_is_refused_in_the_order_of_the_table() {
    let mut rack = w2();
    rack.refused(send(1, 3, 0, true, false), OffRack);
    rack.refused(send(1, 1, 0, true, false), SelfTarget);
    rack.refused(send(2, 0, 0, true, false), NotHeld);
    rack.refused(send(1, 0, 3, true, false), NotHeld);
    rack.refused(send(1, 2, 0, true, false), BareOwner);
    rack.done(raise(1));
    rack.refused(send(1, 0, 2, true, false), Claimed);
    rack.refused(send(1, 2, 2, true, false), Claimed);
    rack.done(lower(1));
    rack.done(store(1));
    rack.refused(send(1, 0, 3, true, false), NotHeld);
    rack.refused(send(1, 0, 2, true, false), BareOwner);

    // With a full mesh: 12 before 13.
    let mut rack = Rack::of(2, 2, 64);
    let block = 1;
    rack.done(Send { component: 0, block, target: 1, plain: 63, owner: true, data: true });
    assert_eq!(rack.step(OLDEST), Ok(Reply::Served { component: 1, block }));
    for _ in 0..63 {
        rack.done(send(0, 1, 1, false, false));
    }
    rack.done(send(0, 1, 0, true, true));
    let bare = |target| Send { component: 1, block, target, plain: 0, owner: true, data: false };
    rack.refused(bare(2), BareOwner);
    rack.refused(bare(0), MeshFull);
    rack.done(Store { component: 1, block, word: 0, value: 1 });
    rack.refused(bare(0), BareOwner);
}

#[test]
fn a_bare_owner_goes_beside_other_messages() {
    let mut rack = w2();
    rack.done(send(1, 2, 1, false, true));
    rack.done(send(1, 0, 1, true, false));
    // The younger one first: home is valid while board 2 waits for its token.
    rack.served(Deliver { position: 1 }, 0);
    rack.loaded(load(0), 0);
    rack.served(OLDEST, 2);
    rack.loaded(load(2), 0);
    rack.refused(load(1), NoToken);
}

/// A send names the owner, yes or no; the mark is no field.
#[test]
fn the_bytes_of_a_bare_send() {
    let bytes = [
        0x12, 0x00, 0x18, 0x01, 0x00, 0x01, 0x02, 0x02, 0x00, 0x01, 0x00, 0x05, 0x00, 0x01, 0x00,
        0x06, 0x00, 0x01, 0x02, 0x07, 0x00, 0x01, 0x01, 0x08, 0x00, 0x01, 0x00,
    ];
    let step = send(2, 0, 2, true, false);
    let mut out = [0xee; 29];
    assert_eq!(step.write(&mut out, 1), Ok(27));
    assert_eq!((out[0], &out[1..28], out[28]), (0xee, &bytes[..], 0xee));
    assert_eq!(Step::from_bytes(&bytes), Ok(step));

    let mut rack = Rack::new();
    rack.done(send(0, 2, 2, true, true));
    rack.served(OLDEST, 2);
    assert_eq!(rack.record().step_bytes(&bytes), Ok(Reply::Done));
    rack.served(OLDEST, 0);
}

#[test]
fn a_whole_block_shows_e_before_a_store_and_m_after() {
    let mut rack = Rack::new();
    rack.shows("II");
    rack.done(send(0, 1, 2, true, true));
    rack.shows("II");
    rack.served(OLDEST, 1);
    rack.shows("EI");
    rack.done(store(1));
    rack.shows("MI");
    // Home makes the owner clean.
    rack.move_all(1, 0);
    rack.shows("II");
    rack.move_all(0, 1);
    rack.shows("EI");
    rack.done(send(1, 2, 1, false, true));
    rack.shows("OI");
    rack.served(OLDEST, 2);
    rack.shows("OS");
    assert_eq!(rack.owner(1), Owner::Clean);
}

#[test]
fn a_store_of_the_value_that_is_there_makes_e_m() {
    let mut rack = w2();
    rack.shows("EI");
    rack.done(Store { component: 1, block: 0, word: 7, value: 0 });
    rack.shows("MI");
    rack.move_all(1, 0);
    rack.move_all(0, 2);
    rack.shows("IE");
}

#[test]
fn only_an_accepted_store_makes_e_m() {
    let mut rack = w2();
    rack.loaded(load(1), 0);
    rack.refused(Store { component: 1, block: 0, word: 8, value: 1 }, OffRack);
    rack.refused(Store { component: 1, block: 1, word: 0, value: 1 }, OffRack);
    rack.refused(store(2), Short);
    rack.refused(send(1, 2, 2, true, false), BareOwner);
    rack.shows("EI");
    rack.done(raise(1));
    rack.done(raise(2));
    rack.shows("EI");
    rack.done(lower(1));
    rack.done(lower(2));
    rack.shows("EI");
}

#[test]
fn one_token_shows_e_and_then_m() {
    let mut rack = Rack::of(1, 1, 1);
    rack.shows("I");
    rack.move_all(0, 1);
    rack.shows("E");
    rack.done(store(1));
    rack.shows("M");
    rack.move_all(1, 0);
    rack.shows("I");
    rack.move_all(0, 1);
    rack.shows("E");
}

/// With T tokens, whatever T is; with one fewer the owner shows O.
#[test]
fn e_and_m_need_all_tokens() {
    for tokens in 2..=64 {
        let mut rack = Rack::of(2, 1, tokens);
        rack.done(send(0, 2, tokens - 2, true, true));
        rack.served(OLDEST, 2);
        rack.shows("IO");
        rack.done(send(0, 2, 1, false, false));
        rack.served(OLDEST, 2);
        rack.shows("IE");
        rack.done(store(2));
        rack.shows("IM");
        rack.done(send(2, 1, 1, false, false));
        rack.shows("IO");
    }
}

#[test]
fn plain_tokens_show_s_with_data_and_else_i() {
    let mut rack = Rack::new();
    rack.done(send(0, 1, 1, false, false));
    rack.served(OLDEST, 1);
    rack.shows("II");
    rack.done(send(0, 1, 1, false, true));
    rack.served(OLDEST, 1);
    rack.shows("SI");
    // The owner comes to them, and goes bare and alone: what stays is still valid.
    rack.done(send(0, 1, 0, true, true));
    rack.served(OLDEST, 1);
    rack.shows("EI");
    rack.done(send(1, 0, 0, true, false));
    rack.shows("SI");
}

#[test]
fn an_owner_shows_o_with_either_mark() {
    for (stored, whole) in [(false, "EI"), (true, "MI")] {
        let mut rack = w2();
        if stored {
            rack.done(store(1));
        }
        rack.done(send(1, 2, 1, false, true));
        rack.served(OLDEST, 2);
        rack.shows("OS");
        // The last token brings back what the mark says.
        rack.done(send(2, 1, 1, false, false));
        rack.shows("OI");
        rack.served(OLDEST, 1);
        rack.shows(whole);
    }
}

#[test]
fn what_shows_e_goes_home_bare_and_comes_back_as_e() {
    let mut rack = w2();
    for board in [1, 2, 1] {
        rack.done(send(board, 0, 2, true, false));
        rack.shows("II");
        rack.served(OLDEST, 0);
        rack.shows("II");
        rack.move_all(0, 3 - board);
        rack.shows(if board == 1 { "IE" } else { "EI" });
    }
}

#[test]
fn a_dirty_owner_shows_m_at_the_next_boards() {
    let mut rack = Rack::of(3, 1, 5);
    rack.move_all(0, 1);
    rack.done(store(1));
    rack.shows("MII");
    rack.move_all(1, 2);
    rack.shows("IMI");
    rack.move_all(2, 3);
    rack.shows("IIM");
    rack.move_all(3, 0);
    rack.move_all(0, 3);
    rack.shows("IIE");
    // A clean one shows E at them.
    rack.move_all(3, 1);
    rack.shows("EII");
}

#[test]
fn a_forward_shows_e_or_m_at_the_board_that_raised() {
    for (stored, before, after) in [(false, "EI", "IE"), (true, "MI", "IM")] {
        let mut rack = w2();
        if stored {
            rack.done(store(1));
        }
        rack.done(raise(2));
        rack.shows(before);
        rack.done(forward(1));
        rack.shows("II");
        rack.served(OLDEST, 2);
        rack.shows(after);
        rack.done(lower(2));
        rack.shows(after);
    }
    // From home, where an owner is clean.
    let mut rack = Rack::new();
    rack.done(raise(1));
    rack.done(forward(0));
    rack.served(OLDEST, 1);
    rack.shows("EI");
}

#[test]
fn a_letter_is_that_of_its_block() {
    let mut rack = Rack::of(2, 3, 3);
    for block in [0, 2] {
        rack.done(Send { component: 0, block, target: 1, plain: 2, owner: true, data: true });
        assert_eq!(rack.step(OLDEST), Ok(Reply::Served { component: 1, block }));
    }
    rack.done(Store { component: 1, block: 2, word: 0, value: 1 });
    let record = rack.record();
    for (block, letter) in [(0, Letter::Exclusive), (1, Letter::Invalid), (2, Letter::Modified)] {
        assert_eq!(record.letter(1, block), Ok(letter));
        assert_eq!(record.view().unwrap().letter(1, block), Some(letter));
    }
}

#[test]
fn letters_are_refused_in_the_order_of_the_table() {
    let mut stored = w2();
    stored.done(store(1));
    for mut rack in [Rack::new(), w2(), stored] {
        let record = rack.record();
        assert_eq!(record.letter(0, 0), Err(Home));
        for (component, block) in [(3, 0), (1, 1), (0, 1), (258, 0), (1, 256), (256, 0)] {
            assert_eq!(record.letter(component, block), Err(OffRack), "{component} {block}");
        }
        // A byte too short is 2, before 3 and 4.
        rack.0.pop();
        let record = rack.record();
        for (component, block) in [(1, 0), (2, 0), (0, 0), (3, 0), (1, 1), (258, 0)] {
            assert_eq!(record.letter(component, block), Err(Unsound), "{component} {block}");
        }
    }
}

#[test]
fn a_delivery_keeps_the_order_of_the_rest() {
    let mut rack = Rack::of(2, 1, 64);
    for plain in 1..=5 {
        rack.done(send(0, 1, plain, false, false));
    }
    for (position, rest) in [(1, &[1, 3, 4, 5][..]), (3, &[1, 3, 4]), (0, &[3, 4])] {
        rack.served(Deliver { position }, 1);
        let record = rack.record();
        assert!(record.view().unwrap().messages().map(|m| m.plain).eq(rest.iter().copied()));
    }
    assert_eq!(rack.record().view().unwrap().cell(1, 0).unwrap().plain, 2 + 5 + 1);
}

#[test]
fn numbers_outside_their_field_are_never_cut() {
    let mut rack = w2();
    rack.done(raise(2));
    // Cut to a byte, each of these would be a step that the rack takes.
    for step in [
        load(257),
        Load { component: 1, block: 256, word: 0 },
        Load { component: 1, block: 0, word: 256 },
        store(257),
        send(1, 258, 1, false, false),
        send(1, 2, 257, false, false),
        Deliver { position: 256 },
        raise(257),
        lower(258),
        forward(257),
        forward(u32::MAX),
    ] {
        assert_eq!(step.to_bytes(), Err(Torn), "{step}");
        rack.refused(step, Torn);
    }
    assert_eq!(rack.letter(257), Err(OffRack));
    assert_eq!(rack.record().letter(1, 256), Err(OffRack));

    let mut buffer = [0xa5; Record::LONGEST];
    for (boards, blocks, tokens) in
        [(0, 1, 3), (16, 1, 16), (2, 0, 3), (2, 33, 3), (2, 1, 65), (258, 1, 259), (2, 257, 3)]
    {
        assert_eq!(Record::open(&mut buffer, boards, blocks, tokens).err(), Some(Size));
    }
    assert_eq!(Record::open(&mut buffer, 2, 1, 259).err(), Some(Size));
    assert_eq!(Record::len_for(0), Err(Size));
    assert_eq!(Record::len_for(257), Err(Size));
    assert!(buffer.iter().all(|&byte| byte == 0xa5));
}

#[test]
fn every_step_comes_back_from_its_bytes() {
    for step in [
        Load { component: 255, block: 31, word: 7 },
        Store { component: 1, block: 2, word: 3, value: u32::MAX },
        send(0, 255, 255, true, false),
        send(15, 0, 0, false, true),
        Deliver { position: 255 },
        raise(9),
        lower(10),
        forward(11),
    ] {
        let bytes = step.to_bytes().unwrap();
        assert_eq!(Step::from_bytes(&bytes), Ok(step));
        assert!(bytes.len() <= Step::LONGEST);
        for end in 0..bytes.len() {
            assert_eq!(Step::from_bytes(&bytes[..end]), Err(Torn));
        }
    }
    assert_eq!(send(0, 1, 2, true, true).to_bytes().unwrap().len(), Step::LONGEST);
}

#[test]
fn buffers_that_are_too_short() {
    for blocks in 1..=32 {
        let len = Record::len_for(blocks).unwrap();
        let mut buffer = vec![0xa5; len];
        assert_eq!(Record::open(&mut buffer[1..], 2, blocks, 3).err(), Some(ShortBuffer));
        assert!(buffer.iter().all(|&byte| byte == 0xa5));
        assert!(Record::open(&mut buffer, 2, blocks, 3).is_ok());
        assert!(View::of(&buffer).is_ok());
        buffer.pop();
        assert_eq!(View::of(&buffer).err(), Some(Unsound));
    }
    for len in 0..8 {
        let mut buffer = vec![2; len];
        let mut rack = Record::over(&mut buffer);
        assert_eq!(rack.step(&OLDEST), Err(Unsound));
        assert_eq!(rack.step(&load(0)), Err(Unsound));
        assert_eq!(rack.step_bytes(&[]), Err(Torn));
        assert_eq!(rack.letter(1, 0), Err(Unsound));
        assert_eq!(rack.view().err(), Some(Unsound));
    }
    assert_eq!(Record::open(&mut [], 2, 1, 3).err(), Some(ShortBuffer));
    assert_eq!(OLDEST.write(&mut [], 0), Err(ShortBuffer));
    assert_eq!(OLDEST.write(&mut [0; 27], usize::MAX), Err(ShortBuffer));
    assert_eq!(Step::from_bytes(&[]), Err(Torn));
}

#[test]
fn lists_without_steps_or_room() {
    let mut rack = Rack::new();
    let mut record = rack.record();
    record.run(&[], |_| panic!("a step of nothing"));

    let list = raise(1).to_bytes().unwrap();
    let mut at = 0;
    assert_eq!(record.run_some(&list, &mut at, &mut []), 0);
    assert_eq!(at, 0);
    let mut answers = [Answer::default()];
    for past in [list.len(), list.len() + 1, usize::MAX] {
        at = past;
        assert_eq!(record.run_some(&list, &mut at, &mut answers), 0);
        assert_eq!(at, past);
    }
    assert_eq!(record.view().unwrap().active(0), None);
}

#[test]
fn a_list_gives_what_its_steps_give_singly() {
    let mut list = Vec::new();
    for i in 0..200 {
        let step = match i % 5 {
            0 => raise(1 + i % 2),
            1 => forward(i % 3),
            2 => OLDEST,
            3 => store(1 + i % 2),
            _ => lower(1 + i / 7 % 2),
        };
        list.extend(step.to_bytes().unwrap());
    }
    list.extend([0x12, 0x00]);
    let (mut whole, mut single) = (Rack::new(), Rack::new());
    let mut replies = Vec::new();
    whole.record().run(&list, |reply| replies.push(reply));
    let singly: Vec<_> = hyaloneth::script::records(&list)
        .map(|record| single.record().step_bytes(record))
        .collect();
    assert_eq!(replies, singly);
    assert_eq!(replies.len(), 201);
    assert_eq!(replies.last(), Some(&Err(Torn)));
    assert!(replies.iter().filter(|reply| reply.is_ok()).count() > 40);
    assert_eq!(whole.0, single.0);
}

#[test]
fn bytes_past_the_record_stay() {
    let len = Record::len_for(1).unwrap();
    let mut buffer = vec![0xa5; len + 100];
    let mut rack = Record::open(&mut buffer, 2, 1, 3).unwrap();
    rack.step(&send(0, 1, 2, true, true)).unwrap();
    rack.step(&OLDEST).unwrap();
    rack.step(&store(1)).unwrap();
    assert!(buffer[len..].iter().all(|&byte| byte == 0xa5));
}

#[test]
fn the_view_has_the_figures_of_a_rack() {
    let mut rack = Rack::of(3, 2, 9);
    let block = 1;
    rack.done(Send { component: 0, block, target: 3, plain: 8, owner: true, data: true });
    assert_eq!(rack.step(OLDEST), Ok(Reply::Served { component: 3, block }));
    rack.done(Store { component: 3, block, word: 7, value: 0x0102_0304 });
    rack.done(Send { component: 3, block, target: 2, plain: 5, owner: false, data: true });
    let record = rack.record();
    let view = record.view().unwrap();
    assert_eq!((view.boards(), view.blocks(), view.tokens()), (3, 2, 9));
    let cell = view.cell(3, block).unwrap();
    assert_eq!((cell.plain, cell.owner, cell.valid, cell.held()), (3, Owner::Dirty, true, 4));
    assert_eq!(cell.words, [0, 0, 0, 0, 0, 0, 0, 0x0102_0304]);
    assert_eq!(view.letter(3, block), Some(Letter::Owned));
    assert_eq!(view.letter(0, block), None);
    let message = view.messages().next().unwrap();
    assert_eq!((message.sender, message.target, message.block, message.plain), (3, 2, 1, 5));
    assert_eq!((message.owner, message.data, message.words), (Owner::Away, true, cell.words));
    assert_eq!(view.cell(0, 0).unwrap().owner, Owner::Clean);
    assert_eq!(view.cell(0, 0).unwrap().held(), 9);
    assert_eq!(view.cell(4, 0), None);
    assert_eq!(view.cell(0, 2), None);
    assert_eq!(view.waiting(2), None);
    assert_eq!(view.barring(0, 0), None);
    assert_eq!(view.barring(4, 0), None);
    assert!(view.barring(3, 0).unwrap().is_empty());
}

#[test]
fn refusals_have_their_numbers_and_words() {
    let words = [
        "torn",
        "unsound",
        "off rack",
        "home",
        "no token",
        "no data",
        "short",
        "self",
        "claimed",
        "empty",
        "not held",
        "bare owner",
        "mesh full",
        "no message",
        "waiting",
        "barred",
        "not waiting",
        "unclaimed",
        "size",
        "short buffer",
    ];
    for (i, refusal) in Refusal::ALL.into_iter().enumerate() {
        assert_eq!(refusal.number(), i as u32 + 1);
        assert_eq!(refusal.word(), words[i]);
        assert_eq!(Refusal::from_number(refusal.number()), Some(refusal));
    }
    assert_eq!(Refusal::from_number(0), None);
    assert_eq!(Refusal::from_number(21), None);
    let error: Box<dyn std::error::Error> = Box::new(NoToken);
    assert_eq!(error.to_string(), "refused 5: no token");
}
