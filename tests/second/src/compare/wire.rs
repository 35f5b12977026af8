//! The reader and the writer.

use super::{filled, Harness};
use second::calls::hex;
use second::coverage::{READING, WRITING};
use second::lists::Lists;
use second::model::{self, Rack, Refusal};
use second::{engine, numbers, reply};

impl Harness {
    pub fn wire(&mut self, count: usize) -> Result<(), String> {
        let rack = Rack::open(3, 2, 5).expect("sizes in range");
        let mut lists = Lists::new(self.rng.draw());
        for turn in 0..count {
            let bytes = lists.bytes(&rack);
            self.reading(&bytes)?;
            let mut told = numbers::of_step(lists.step(&rack)).to_vec();
            match turn % 6 {
                0 => {
                    let place = self.rng.below(told.len());
                    told[place] = self.rng.pick(&[0, 1, 2, 0x10, 0x16, 0x17, 255, 256, 258, u32::MAX]);
                }
                1 => told.resize(self.rng.below(15), 7),
                _ => {}
            }
            self.writing(&told)?;
        }
        Ok(())
    }

    fn reading(&mut self, bytes: &[u8]) -> Result<(), String> {
        let places = self.rng.pick(&[0, 5, 11, 12, 12, 12, 13, 20]);
        let before: Vec<u32> = (0..places).map(|_| self.rng.draw() as u32).collect();
        let mut want = before.clone();
        let result = match model::read(bytes) {
            Err(refusal) => reply::refused(refusal),
            Ok(_) if places < numbers::PLACES => reply::refused(Refusal::ShortBuffer),
            Ok(step) => {
                want[..numbers::PLACES].copy_from_slice(&numbers::of_step(step));
                reply::done(0)
            }
        };
        let mut got = before;
        let given = engine::wire_read(bytes, &mut got);
        self.coverage.count(READING, given);
        if given != result || got != want {
            let (given, result) = (reply::say(given), reply::say(result));
            return Err(format!("# reading {} into {places} numbers: {given} {got:?}, the model has {result} {want:?}", hex(bytes)));
        }
        Ok(())
    }

    fn writing(&mut self, told: &[u32]) -> Result<(), String> {
        let mut want = filled(self.rng.draw(), self.rng.pick(&[0, 10, 26, 27, 40, 60]));
        let at = match self.rng.below(10) {
            0 => self.rng.pick(&[usize::MAX, usize::MAX - 26, 1 << 32, 61]),
            1..5 => self.rng.below(want.len() + 2),
            _ => self.rng.below(want.len() / 2 + 1),
        };
        let mut got = want.clone();
        let result = match numbers::to_step(told).map(model::write) {
            None => reply::refused(Refusal::Torn),
            Some(bytes) => match at.checked_add(bytes.len()).and_then(|end| want.get_mut(at..end)) {
                None => reply::refused(Refusal::ShortBuffer),
                Some(room) => {
                    room.copy_from_slice(&bytes);
                    reply::done(bytes.len() as u32)
                }
            },
        };
        let room = got.len();
        let given = engine::wire_write(told, &mut got, at);
        self.coverage.count(WRITING, given);
        if given != result || got != want {
            let (given, result) = (reply::say(given), reply::say(result));
            return Err(format!(
                "# writing {told:?} at {at} of {room} bytes: {given} {}, the model has {result} {}",
                hex(&got),
                hex(&want)
            ));
        }
        Ok(())
    }
}
