//! Letters worked by hand, by every program: each step's reply, and after every line all letters.

use super::examples::stated;
use super::{filled, Harness, Sizes, SPARE};
use second::by_hand::{self, Asks, Line, Situation};
use second::calls::Call;
use second::{blind, record, reply};

/// Numbers off every rack. Cut to a byte or two, most would be on it.
const OFF: [u32; 7] = [255, 256, 257, 258, 65_536, 65_537, u32::MAX];

/// The rack of a situation, as bytes and as the blind program has it.
struct Worked {
    sizes: Sizes,
    buffer: Vec<u8>,
    blind: blind::Rack,
}

impl Harness {
    pub fn by_hand(&mut self) -> Result<(), String> {
        for Situation { at, sizes, lines } in by_hand::all()? {
            let (boards, blocks, tokens) = sizes;
            let buffer = filled(1, record::length(blocks as usize) + SPARE);
            let blind = blind::Rack::open(boards, blocks, tokens).map_err(|number| format!("# {at}\n# blind: refused {number}"))?;
            self.held(&at, &buffer, &Call::Open(boards, blocks, tokens), reply::done(0), Some("ok"))?;
            let mut rack = Worked { sizes, buffer: self.comparison.after.clone(), blind };
            for line in &lines {
                for _ in 0..line.times {
                    self.line(&mut rack, line)?;
                }
            }
            self.coverage.hand_lines += lines.len() as u64;
            self.coverage.situations += 1;
        }
        Ok(())
    }

    fn line(&mut self, rack: &mut Worked, line: &Line) -> Result<(), String> {
        match &line.asks {
            Asks::Nothing => {}
            Asks::Step(bytes, says) => {
                let by_blind = reply::of_blind(rack.blind.step(bytes));
                self.held(&line.at, &rack.buffer, &Call::Step(bytes), by_blind, Some(says))?;
                rack.buffer.clone_from(&self.comparison.after);
            }
            Asks::Letter(component, block, says) => self.letter(&line.at, rack, *component, *block, Some(says))?,
        }
        let (boards, blocks, _) = rack.sizes;
        for component in (0..=boards + 1).chain(OFF) {
            for block in (0..=blocks).chain(OFF) {
                let says = match &line.letters {
                    _ if component > boards || block >= blocks => Some("r3"),
                    _ if component == 0 => Some("r4"),
                    Some(letters) => Some(letters[block as usize][component as usize - 1]),
                    None => None,
                };
                self.letter(&line.at, rack, component, block, says)?;
            }
        }
        Ok(())
    }

    fn letter(&mut self, at: &str, rack: &Worked, component: u32, block: u32, says: Option<&str>) -> Result<(), String> {
        let at = format!("{at}: the letter of {component}.{block}");
        let by_blind = reply::of_blind_letter(rack.blind.letter(component, block));
        self.held(&at, &rack.buffer, &Call::Letter(component, block), by_blind, says)?;
        match says {
            Some("r3" | "r4") => self.coverage.hand_refused += 1,
            Some(_) => self.coverage.hand_letters += 1,
            None => {}
        }
        Ok(())
    }

    /// One call, alike in all programs and, where that is stated, as worked by hand.
    fn held(&mut self, at: &str, before: &[u8], call: &Call, by_blind: u64, says: Option<&str>) -> Result<(), String> {
        let given = self.call(before, call).map_err(|case| format!("# {at}\n{case}"))?;
        if by_blind != given {
            return Err(format!("# {at}\n# blind: {} where the model gives {}", reply::say(by_blind), reply::say(given)));
        }
        says.map_or(Ok(()), |says| stated(at, says, given))
    }
}
