//! Torn steps, and buffers that end before the record does.

use super::Harness;
use second::calls::Call;
use second::layout::TOKENS;
use second::lists::{tear, tear_so, TEARS};
use second::record;

impl Harness {
    pub fn torn(&mut self) -> Result<(), String> {
        let (rack, sound) = self.deep((3, 2, 5), 60, |_| true);
        let mut unsound = sound.clone();
        unsound[TOKENS] += 1;
        let short = sound[..record::length(2) - 1].to_vec();
        let buffers = [sound, unsound, short];
        for bytes in self.one_of_each(&rack) {
            for buffer in &buffers {
                for end in 0..=bytes.len() {
                    self.call(buffer, &Call::Step(&bytes[..end]))?;
                }
            }
            for at in 0..bytes.len() {
                for value in 0..=255 {
                    let mut changed = bytes.clone();
                    changed[at] = value;
                    self.call(&buffers[usize::from(value) % 3], &Call::Step(&changed))?;
                }
            }
            for way in 0..TEARS {
                for i in 0..60 {
                    let torn = tear_so(&mut self.rng, bytes.clone(), way);
                    self.call(&buffers[i % 3], &Call::Step(&torn))?;
                    let twice = tear(&mut self.rng, if torn.len() < 7 { bytes.clone() } else { torn });
                    self.call(&buffers[i % 3], &Call::Step(&twice))?;
                }
            }
        }
        // Long ones: a body as long as two bytes can say, and one behind it.
        let mut long = vec![0; 3 + 65_535];
        for kind in 0x0f..=0x17 {
            long[..3].copy_from_slice(&[kind, 0xff, 0xff]);
            self.call(&buffers[0], &Call::Step(&long))?;
            self.call(&buffers[0], &Call::Step(&long[..long.len() - 1]))?;
        }
        Ok(())
    }

    pub fn short_buffers(&mut self) -> Result<(), String> {
        for sizes in [(1, 1, 1), (3, 2, 5)] {
            let (rack, buffer) = self.deep(sizes, 60, |_| true);
            let steps = self.one_of_each(&rack);
            let list = steps.concat();
            for length in 0..=buffer.len() {
                let lent = &buffer[..length];
                self.call(lent, &Call::Step(&steps[length % 7]))?;
                self.call(lent, &Call::Step(&[]))?;
                self.call(lent, &Call::Letter(1, 0))?;
                self.call(lent, &Call::Letter(9, 9))?;
                self.call(lent, &Call::Run { list: &list, at: 0, places: 9 })?;
            }
        }
        Ok(())
    }
}
