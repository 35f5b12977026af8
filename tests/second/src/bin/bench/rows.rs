//! The rows of the benchmark: racks in some state, with seeded lists that keep them in such a state; deliveries alone; loads alone; blocks
//! that go to a board and come back, with data or bare; and state letters.

use crate::Call;
use second::lists::{Lists, Mood};
use second::model::{self, Cell, Rack, Step, HOME, MESH_LIMIT, WORDS};
use second::rng::Rng;
use std::ops::Range;

type Sizes = (u32, u32, u32);

/// Steps that bring a rack into its state before the list starts.
const WARM_UP: usize = 40_000;
/// So many records of the largest rack do not fit into a core's own caches. Each gets so many steps in a run before the next one's turn.
const MANY: usize = 400;
const TURN: usize = 10;
/// The most steps of a row of deliveries, where much time goes into what is not measured.
const DELIVERIES: usize = 16_384;

/// A rack, and the list that it is given.
pub struct Work {
    pub rack: Rack,
    pub list: Vec<u8>,
    pub cuts: Vec<Range<usize>>,
}

impl Work {
    fn new(rack: Rack) -> Work {
        Work { rack, list: Vec::new(), cuts: Vec::new() }
    }

    fn push(&mut self, step: Step) {
        let at = self.list.len();
        self.list.extend(model::write(step));
        self.cuts.push(at..self.list.len());
    }
}

pub struct Row {
    pub name: &'static str,
    pub sizes: Sizes,
    /// They are served in turn: one step at a time by `hyl_step`, `turn` steps by `hyl_run`.
    pub works: Vec<Work>,
    pub turn: usize,
    /// In place of steps: the letters that are asked, by the record's number, component and block.
    pub asked: Vec<(usize, u32, u32)>,
    /// Whether the records are as at first again before each turn.
    pub renewed: bool,
    pub accepted: usize,
    pub in_flight: f64,
    /// Valid copies of a block.
    pub copies: f64,
    /// Of a hundred blocks, how many bar a board: these take longest in soundness.
    pub barred: f64,
}

/// What a list keeps a rack at.
#[derive(Clone, Copy, PartialEq, Eq)]
enum State {
    Few,
    Full,
    /// Few messages, and every component has valid data of every block.
    Copies,
}

pub fn all(steps: usize) -> Vec<Row> {
    let mut rows = Vec::new();
    for sizes in [(2, 1, 3), (8, 16, 16), (15, 32, 64)] {
        rows.push(row("few messages", sizes, State::Few, 1, steps));
        rows.push(row("full mesh", sizes, State::Full, 1, steps));
    }
    rows.push(row("copies at all boards", (15, 32, 64), State::Copies, 1, steps));
    rows.push(row("400 records in turn", (15, 32, 64), State::Few, MANY, steps));
    rows.push(deliveries("deliver with data", (2, 1, 3), 128, 1, 1, steps));
    rows.push(deliveries("deliver with data", (15, 32, 64), 32, 1, 1, steps));
    rows.push(deliveries("deliver with data", (15, 32, 64), 32, MESH_LIMIT, 1, steps));
    rows.push(deliveries("deliver all, with data", (15, 32, 64), 32, MESH_LIMIT, MESH_LIMIT, steps));
    let sizes = (15, 32, 64);
    rows.push(loads("loads at home", sizes, opened(sizes), steps));
    rows.push(loads("loads at boards", sizes, carrying(&mut Rng::new(0), sizes, 0), steps));
    for sizes in [(2, 1, 3), (15, 32, 64)] {
        rows.push(returns("gives back with data", sizes, true, steps));
        rows.push(returns("gives back bare", sizes, false, steps));
    }
    rows.push(letters("letters of all boards", (2, 1, 3), 128, steps));
    rows.push(letters("letters of all boards", (15, 32, 64), 32, steps));
    rows
}

impl Row {
    fn new(name: &'static str, sizes: Sizes, turn: usize) -> Row {
        Row {
            name,
            sizes,
            works: Vec::new(),
            turn,
            asked: Vec::new(),
            renewed: false,
            accepted: 0,
            in_flight: 0.0,
            copies: 0.0,
            barred: 0.0,
        }
    }

    /// Counts the valid copies of each block, and whether a board is barred in it.
    fn look(&mut self, rack: &Rack) {
        for block in &rack.blocks {
            self.copies += block.cells.iter().filter(|cell| cell.valid).count() as f64;
            self.barred += 100.0 * f64::from(block.barring.values().any(|set| !set.is_empty()));
        }
    }

    /// Makes averages of what was added up: over the steps, and over so many looks at a block.
    fn average(&mut self, looks: usize) {
        self.in_flight /= self.steps() as f64;
        self.copies /= looks as f64;
        self.barred /= looks as f64;
    }

    /// The calls that it is measured with.
    pub fn calls(&self) -> &'static [Call] {
        if self.asked.is_empty() {
            &[Call::Step, Call::Run]
        } else {
            &[Call::Letter]
        }
    }

    /// How many steps it has in all, or letters.
    pub fn steps(&self) -> usize {
        self.works.iter().map(|work| work.cuts.len()).sum::<usize>() + self.asked.len()
    }

    /// How many single steps are given before the records are renewed.
    pub fn steps_of_part(&self) -> usize {
        if self.renewed {
            self.turn * self.works.len()
        } else {
            usize::MAX
        }
    }

    /// How many runs are made before the records are renewed.
    pub fn runs_of_part(&self) -> usize {
        if self.renewed {
            self.works.len()
        } else {
            usize::MAX
        }
    }

    /// The runs in the order in which they are made: the record's number, where in its list the run starts, and how many steps it has.
    pub fn runs(&self) -> Vec<(usize, usize, usize)> {
        let longest = self.works.iter().map(|work| work.cuts.len()).max().unwrap_or(0);
        let turns = (0..longest).step_by(self.turn).flat_map(|i| self.works.iter().enumerate().map(move |work| (i, work)));
        turns.filter_map(|(i, (number, work))| Some((number, work.cuts.get(i)?.start, self.turn.min(work.cuts.len() - i)))).collect()
    }

    /// The first single steps in the order in which they are given: the record's number and the step's bytes.
    pub fn order(&self, steps: usize) -> Vec<(usize, &[u8])> {
        let longest = self.works.iter().map(|work| work.cuts.len()).max().unwrap_or(0);
        let turns = (0..longest).flat_map(|i| self.works.iter().enumerate().map(move |(number, work)| (i, number, work)));
        turns.filter_map(|(i, number, work)| Some((number, &work.list[work.cuts.get(i)?.clone()]))).take(steps).collect()
    }
}

fn opened((boards, blocks, tokens): Sizes) -> Rack {
    Rack::open(boards, blocks, tokens).expect("sizes in range")
}

fn row(name: &'static str, sizes: Sizes, state: State, records: usize, steps: usize) -> Row {
    let mut lists = Lists::new(u64::from(sizes.0) * 1000 + state as u64);
    let mut rack = opened(sizes);
    if state == State::Copies {
        spread(&mut rack);
    }
    for _ in 0..WARM_UP {
        let step = next(&mut lists, &rack, state);
        // A refusal changes nothing.
        let _ = rack.step(step);
    }
    let turn = if records > 1 { TURN } else { steps };
    let mut row = Row::new(name, sizes, turn);
    let mut looks = 0;
    for _ in 0..records {
        // Records that stand beside each other are not alike.
        for _ in 0..if records > 1 { 200 } else { 0 } {
            let step = next(&mut lists, &rack, state);
            let _ = rack.step(step);
        }
        let mut work = Work::new(rack.clone());
        while work.cuts.len() < steps / records {
            let step = next(&mut lists, &rack, state);
            let fits = rack.step(step).is_ok();
            if work.cuts.len().is_multiple_of(50) {
                looks += rack.blocks.len();
                row.look(&rack);
            }
            // Most steps of a policy fit.
            if fits || lists.rng.percent(20) {
                work.push(step);
                row.accepted += usize::from(fits);
                row.in_flight += rack.mesh.len() as f64;
            }
        }
        row.works.push(work);
    }
    row.average(looks);
    row
}

/// Deliveries alone. Each record has so many messages with data in flight; a turn delivers `turn` of them, each at any position.
fn deliveries(name: &'static str, sizes: Sizes, records: usize, in_flight: usize, turn: usize, steps: usize) -> Row {
    let mut rng = Rng::new(in_flight as u64);
    let mut row = Row { renewed: true, ..Row::new(name, sizes, turn) };
    for _ in 0..records {
        let mut work = Work::new(carrying(&mut rng, sizes, in_flight));
        row.look(&work.rack);
        for _ in 0..steps.min(DELIVERIES) / records / turn {
            let mut rack = work.rack.clone();
            for _ in 0..turn {
                let step = Step::Deliver { position: rng.below(rack.mesh.len()) as u8 };
                row.in_flight += rack.mesh.len() as f64;
                rack.step(step).expect("a message is there");
                work.push(step);
            }
        }
        row.works.push(work);
    }
    row.accepted = row.steps();
    row.average(records * row.works[0].rack.blocks.len());
    row
}

/// Loads alone, each of any word of any block, at a component with valid data of it. A load changes nothing, so one record serves for all.
fn loads(name: &'static str, sizes: Sizes, rack: Rack, steps: usize) -> Row {
    let mut rng = Rng::new(0);
    let mut row = Row::new(name, sizes, steps);
    row.look(&rack);
    let blocks = rack.blocks.len();
    let mut work = Work::new(rack);
    for _ in 0..steps {
        let block = rng.below(blocks);
        let component = work.rack.blocks[block].cells.iter().position(|cell| cell.valid).expect("a component has the block");
        work.push(Step::Load { component: component as u8, block: block as u8, word: rng.below(WORDS) as u8 });
    }
    row.works.push(work);
    row.accepted = row.steps();
    row.average(blocks);
    row
}

/// Blocks that no board stores to: home sends all tokens of one to a board, with data, and that gives them back, with data or bare.
fn returns(name: &'static str, sizes: Sizes, data: bool, steps: usize) -> Row {
    let (boards, blocks, tokens) = sizes;
    let mut rng = Rng::new(0);
    let mut row = Row::new(name, sizes, steps);
    let mut rack = opened(sizes);
    let mut work = Work::new(rack.clone());
    let mut looks = 0;
    while work.cuts.len() < steps {
        let (block, board) = (rng.below(blocks as usize) as u8, 1 + rng.below(boards as usize) as u8);
        let send = |component, target, data| Step::Send { component, block, target, plain: tokens as u8 - 1, owner: true, data };
        let deliver = Step::Deliver { position: 0 };
        let looks_now = work.cuts.len().is_multiple_of(200);
        for step in [send(HOME, board, true), deliver, send(board, HOME, data), deliver] {
            rack.step(step).expect("the sender has the tokens, and its owner is clean");
            row.in_flight += rack.mesh.len() as f64;
            if looks_now {
                looks += rack.blocks.len();
                row.look(&rack);
            }
            work.push(step);
        }
    }
    row.works.push(work);
    row.accepted = row.steps();
    row.average(looks);
    row
}

/// State letters alone: those of all boards and blocks of a record, as a screen asks for them, then of any other.
fn letters(name: &'static str, sizes: Sizes, records: usize, steps: usize) -> Row {
    let (boards, blocks, _) = sizes;
    let mut rng = Rng::new(0);
    let mut row = Row::new(name, sizes, steps);
    for _ in 0..records {
        let rack = in_all_states(&mut rng, sizes);
        row.look(&rack);
        row.works.push(Work::new(rack));
    }
    while row.asked.len() < steps {
        let number = rng.below(records);
        row.asked.extend((0..blocks).flat_map(|block| (1..=boards).map(move |component| (number, component, block))));
    }
    row.asked.truncate(steps);
    row.accepted = row.steps();
    row.average(records * blocks as usize);
    row
}

/// One block in five is at home, the others are each at a board. Half of these boards have stored to it, and half have given a token or two
/// with data to others: so there is E, M, O and S.
fn in_all_states(rng: &mut Rng, sizes: Sizes) -> Rack {
    let (boards, blocks, tokens) = sizes;
    let mut rack = opened(sizes);
    let mut step = |step: Step| rack.step(step).expect("the sender has the tokens");
    for block in 0..blocks as u8 {
        if rng.below(5) == 0 {
            continue;
        }
        let component = 1 + rng.below(boards as usize) as u8;
        step(Step::Send { component: HOME, block, target: component, plain: tokens as u8 - 1, owner: true, data: true });
        step(Step::Deliver { position: 0 });
        if rng.percent(50) {
            step(Step::Store { component, block, word: 0, value: rng.draw() as u32 });
        }
        for _ in 0..rng.pick(&[0, 0, 1, 2]) {
            let other = 1 + rng.below(boards as usize - 1) as u8;
            let target = other + u8::from(other >= component);
            step(Step::Send { component, block, target, plain: 1, owner: false, data: true });
            step(Step::Deliver { position: 0 });
        }
    }
    rack
}

/// Each block goes to a board, which stores words of its own. Then so many messages with data go from such boards to others, one token with each.
fn carrying(rng: &mut Rng, sizes: Sizes, in_flight: usize) -> Rack {
    let (boards, blocks, tokens) = sizes;
    let mut rack = opened(sizes);
    let mut step = |step: Step| rack.step(step).expect("the board has the tokens");
    let holders: Vec<u8> = (0..blocks).map(|_| 1 + rng.below(boards as usize) as u8).collect();
    for (block, &component) in (0..).zip(&holders) {
        step(Step::Send { component: HOME, block, target: component, plain: tokens as u8 - 1, owner: true, data: true });
        step(Step::Deliver { position: 0 });
        for word in 0..WORDS as u8 {
            step(Step::Store { component, block, word, value: rng.draw() as u32 });
        }
    }
    for _ in 0..in_flight {
        let block = rng.below(blocks as usize);
        let (component, other) = (holders[block], rng.below(boards as usize) as u8);
        let target = other + u8::from(other >= component);
        step(Step::Send { component, block: block as u8, target, plain: 1, owner: false, data: true });
    }
    rack
}

/// Three plain tokens with data go from home to every board.
fn spread(rack: &mut Rack) {
    for block in 0..rack.blocks.len() as u8 {
        for target in 1..=rack.boards {
            let send = Step::Send { component: HOME, block, target, plain: 3, owner: false, data: true };
            rack.step(send).and_then(|_| rack.step(Step::Deliver { position: 0 })).expect("home has the tokens");
        }
    }
}

fn next(lists: &mut Lists, rack: &Rack, state: State) -> Step {
    let most = (rack.blocks.len() * rack.tokens as usize).min(MESH_LIMIT);
    let band = if state == State::Full { most - most / 8..most + 1 } else { 0..most.min(24) / 4 };
    let mood = match rack.mesh.len() {
        count if count < band.start => Mood::Flood,
        count if count >= band.end => Mood::Drain,
        _ => Mood::Mixed,
    };
    loop {
        let step = lists.in_mood(rack, mood);
        if !goes_bare(rack, step) && (state != State::Copies || !empties(rack, step)) {
            return step;
        }
    }
}

fn cell(rack: &Rack, component: u8, block: u8) -> Option<&Cell> {
    rack.blocks.get(usize::from(block)).and_then(|block| block.cells.get(usize::from(component)))
}

/// Whether the step takes the last token that a component has of a block.
fn empties(rack: &Rack, step: Step) -> bool {
    match step {
        Step::Send { component, block, plain, owner, .. } => {
            u32::from(plain) + u32::from(owner) == cell(rack, component, block).map_or(0, Cell::held)
        }
        Step::Forward { .. } => true,
        _ => false,
    }
}

/// Whether the step sends home an owner that may go bare. An archive from before does not take it and would then do something else, so rows
/// that compare archives have no such step.
fn goes_bare(rack: &Rack, step: Step) -> bool {
    match step {
        Step::Send { component, block, target, owner: true, data: false, .. } => {
            cell(rack, component, block).is_some_and(|cell| cell.owner.may_go_bare(target))
        }
        _ => false,
    }
}
