use crate::answer::{self, Answer, Letter, Reply};
use crate::ffi;
use crate::view;
use crate::{Refusal, Step, View};

/// A rack's record at the front of a lent buffer.
///
/// Bytes of the buffer past the record never change. The record lives in the buffer alone: a host
/// may store the bytes, and go on with them later by [`Record::over`]. A record of another format is
/// refused: see [`Record::FORMAT`].
///
/// ```
/// use hyaloneth::{Record, Refusal, Reply, Step};
///
/// # fn main() -> Result<(), Refusal> {
/// let mut buffer = [0; Record::LONGEST];
/// let mut rack = Record::open(&mut buffer, 2, 1, 3)?;
/// assert_eq!(rack.step(&Step::Raise { component: 2, block: 0 }), Ok(Reply::Done));
/// assert_eq!(rack.step(&Step::Raise { component: 2, block: 0 }), Err(Refusal::Waiting));
///
/// let mut rack = Record::over(&mut buffer);
/// assert_eq!(rack.step(&Step::Forward { component: 0, block: 0 }), Ok(Reply::Done));
/// # Ok(())
/// # }
/// ```
#[derive(Debug)]
pub struct Record<'a> {
    buffer: &'a mut [u8],
}

impl<'a> Record<'a> {
    /// The longest record, in bytes: that of 32 blocks.
    pub const LONGEST: usize = view::block_at(32);

    /// The format of a record: the number of its layout, which stands in its bytes. It rises by one
    /// with every version that gives a byte of the record another meaning. [`Record::open`] writes
    /// it, whatever the buffer held; no other call does. With another format, or none, a record is
    /// not sound: a step, a letter and a view are refused with [`Refusal::Unsound`], a torn step with
    /// [`Refusal::Torn`]. [`View::format_of`] tells which it has.
    ///
    /// Versions before format 1 wrote none, and cleared none. A buffer that held a record of this
    /// format may still have its bytes after such a version has opened a record there. Clear the
    /// buffer before, or that record may pass for a sound one.
    ///
    /// ```
    /// use hyaloneth::{Record, Refusal, View};
    ///
    /// /// Why bytes that were kept cannot be taken up, if they cannot.
    /// fn fault(kept: &[u8]) -> Option<String> {
    ///     View::of(kept).err()?;
    ///     Some(match View::format_of(kept) {
    ///         None => "no record, or one of a version without formats".into(),
    ///         Some(Record::FORMAT) => "of this engine's format, cut short or damaged".into(),
    ///         Some(other) => format!("of format {other}, this engine has {}", Record::FORMAT),
    ///     })
    /// }
    ///
    /// let mut kept = vec![0; Record::len_for(1)?];
    /// assert!(fault(&kept).unwrap().starts_with("no record"));
    /// Record::open(&mut kept, 2, 1, 3)?;
    /// assert_eq!(fault(&kept), None);
    /// kept.pop();
    /// assert!(fault(&kept).unwrap().contains("cut short"));
    /// # Ok::<(), Refusal>(())
    /// ```
    pub const FORMAT: u8 = view::FORMAT_NUMBER;

    /// How many bytes the record of a rack of `blocks` blocks takes.
    ///
    /// Refused with [`Refusal::Size`] where `blocks` is not 1 to 32.
    ///
    /// ```
    /// use hyaloneth::{Record, Refusal};
    ///
    /// assert_eq!(Record::len_for(1), Ok(3_224));
    /// assert_eq!(Record::len_for(32), Ok(22_816));
    /// assert_eq!(Record::LONGEST, 22_816);
    /// assert_eq!(Record::len_for(33), Err(Refusal::Size));
    /// ```
    pub fn len_for(blocks: u32) -> Result<usize, Refusal> {
        // SAFETY: takes and gives numbers only.
        answer::count(unsafe { ffi::hyl_record_len(blocks) })
    }

    /// Opens a fresh record: home holds all tokens of each block, valid, the owners are clean, and
    /// all words are 0. What the buffer held before does not matter.
    ///
    /// `boards` is N, 1 to 15; `blocks` is B, 1 to 32; `tokens` is T, from N to 64. Refused with
    /// [`Refusal::Size`], then with [`Refusal::ShortBuffer`]; the buffer is then as it was.
    ///
    /// ```
    /// use hyaloneth::{Record, Refusal};
    ///
    /// let mut buffer = vec![0; 3_223];
    /// assert_eq!(Record::open(&mut buffer, 2, 1, 3).err(), Some(Refusal::ShortBuffer));
    /// buffer.push(0);
    /// assert!(Record::open(&mut buffer, 2, 1, 3).is_ok());
    /// ```
    pub fn open(
        buffer: &'a mut [u8],
        boards: u32,
        blocks: u32,
        tokens: u32,
    ) -> Result<Record<'a>, Refusal> {
        // SAFETY: the pointer comes from a slice borrowed alone, with its length.
        answer::count(unsafe {
            ffi::hyl_open(buffer.as_mut_ptr(), buffer.len(), boards, blocks, tokens)
        })?;
        Ok(Record { buffer })
    }

    /// Takes up the record that a buffer holds. Nothing is looked at here: every step, letter and
    /// view decides whether the record is sound. Where it is not, they are refused with
    /// [`Refusal::Unsound`], a step that is torn with [`Refusal::Torn`].
    pub fn over(buffer: &'a mut [u8]) -> Record<'a> {
        Record { buffer }
    }

    /// Makes one step: [`Reply::Word`] for a load, [`Reply::Served`] for a deliver, [`Reply::Done`]
    /// for any other.
    ///
    /// Refused with [`Refusal::Torn`] where a number is outside its field, then as
    /// [`Record::step_bytes`] is.
    pub fn step(&mut self, step: &Step) -> Result<Reply, Refusal> {
        let mut bytes = [0; Step::LONGEST];
        let count = step.write(&mut bytes, 0)?;
        self.step_bytes(&bytes[..count])
    }

    /// Makes the step whose record the bytes are.
    ///
    /// Refused with [`Refusal::Torn`], then [`Refusal::Unsound`], then by the step's own lines of
    /// the refusal table. Each call decides anew whether the record is sound: [`Record::run_some`]
    /// does so once for a list, [`Record::run`] once for 64 steps of it.
    ///
    /// ```
    /// use hyaloneth::{Record, Refusal};
    ///
    /// let mut buffer = [0; Record::LONGEST];
    /// let mut rack = Record::open(&mut buffer, 2, 1, 3)?;
    /// assert_eq!(rack.step_bytes(&[0x13, 0, 4, 9, 0, 1, 0]), Err(Refusal::NoMessage));
    /// assert_eq!(rack.step_bytes(&[0x13, 0, 4, 9, 0, 1]), Err(Refusal::Torn));
    /// assert_eq!(rack.step_bytes(&[]), Err(Refusal::Torn));
    /// # Ok::<(), Refusal>(())
    /// ```
    pub fn step_bytes(&mut self, step: &[u8]) -> Result<Reply, Refusal> {
        // SAFETY: both pointers come from slices, with their lengths; the buffer is borrowed alone.
        answer::reply(unsafe {
            ffi::hyl_step(self.buffer.as_mut_ptr(), self.buffer.len(), step.as_ptr(), step.len())
        })
    }

    /// Makes all steps of a list of step records that stand one behind the other, and hands over
    /// the reply or refusal of each, in order. A record that the list ends before is one torn step.
    ///
    /// ```
    /// use hyaloneth::{Record, Refusal, Reply, Step};
    ///
    /// let mut list = Step::Raise { component: 1, block: 0 }.to_bytes()?;
    /// list.extend(Step::Forward { component: 0, block: 0 }.to_bytes()?);
    /// list.extend(Step::Deliver { position: 0 }.to_bytes()?);
    /// list.extend(Step::Lower { component: 2, block: 0 }.to_bytes()?);
    ///
    /// let mut buffer = [0; Record::LONGEST];
    /// let mut rack = Record::open(&mut buffer, 2, 1, 3)?;
    /// let mut replies = Vec::new();
    /// rack.run(&list, |reply| replies.push(reply));
    /// assert_eq!(replies[..2], [Ok(Reply::Done), Ok(Reply::Done)]);
    /// assert_eq!(replies[2], Ok(Reply::Served { component: 1, block: 0 }));
    /// assert_eq!(replies[3], Err(Refusal::NotWaiting));
    /// # Ok::<(), Refusal>(())
    /// ```
    pub fn run(&mut self, list: &[u8], mut each: impl FnMut(Result<Reply, Refusal>)) {
        let mut answers = [Answer::default(); 64];
        let mut at = 0;
        loop {
            let made = self.run_some(list, &mut at, &mut answers);
            answers[..made].iter().for_each(|answer| each(answer.get()));
            if made < answers.len() {
                return;
            }
        }
    }

    /// Makes the steps of a list from `at` on until the list ends or `answers` is full, and gives
    /// how many. `at` becomes the place where the next call goes on, the list's length at the end.
    /// Where it is past the end, no step is made and it stays. Answers behind those made stay as
    /// they are.
    ///
    /// ```
    /// use hyaloneth::{Answer, Record, Refusal, Reply, Step};
    ///
    /// let list = Step::Raise { component: 1, block: 0 }.to_bytes()?.repeat(3);
    /// let mut buffer = [0; Record::LONGEST];
    /// let mut rack = Record::open(&mut buffer, 2, 1, 3)?;
    /// let mut answers = [Answer::default(); 2];
    /// let mut at = 0;
    /// assert_eq!(rack.run_some(&list, &mut at, &mut answers), 2);
    /// assert_eq!(at, 22);
    /// assert_eq!(answers.map(Answer::get), [Ok(Reply::Done), Err(Refusal::Waiting)]);
    /// assert_eq!(rack.run_some(&list, &mut at, &mut answers), 1);
    /// assert_eq!(at, list.len());
    /// # Ok::<(), Refusal>(())
    /// ```
    pub fn run_some(&mut self, list: &[u8], at: &mut usize, answers: &mut [Answer]) -> usize {
        // SAFETY: the pointers come from slices and a reference, with their lengths, each that is
        // written borrowed alone; an Answer is a u64 by its representation.
        unsafe {
            ffi::hyl_run(
                self.buffer.as_mut_ptr(),
                self.buffer.len(),
                list.as_ptr(),
                list.len(),
                at,
                answers.as_mut_ptr().cast(),
                answers.len(),
            )
        }
    }

    /// The state letter of a board and a block: M, O, E, S or I. [`Letter`] says what each means.
    ///
    /// Refused with [`Refusal::Unsound`], [`Refusal::OffRack`] or [`Refusal::Home`], in that order.
    ///
    /// ```
    /// use hyaloneth::{Letter, Record, Refusal};
    ///
    /// let mut buffer = [0; Record::LONGEST];
    /// let rack = Record::open(&mut buffer, 2, 1, 3)?;
    /// assert_eq!(rack.letter(2, 0), Ok(Letter::Invalid));
    /// assert_eq!(rack.letter(258, 0), Err(Refusal::OffRack));
    /// assert_eq!(rack.letter(0, 0), Err(Refusal::Home));
    /// # Ok::<(), Refusal>(())
    /// ```
    pub fn letter(&self, component: u32, block: u32) -> Result<Letter, Refusal> {
        letter_in(self.buffer, component, block)
    }

    /// The record's figures, to read. Refused with [`Refusal::Unsound`].
    pub fn view(&self) -> Result<View<'_>, Refusal> {
        View::of(self.buffer)
    }

    /// The whole buffer, the record at its front.
    pub fn buffer(&self) -> &[u8] {
        self.buffer
    }
}

/// The state letter in the record that a buffer holds.
pub(crate) fn letter_in(buffer: &[u8], component: u32, block: u32) -> Result<Letter, Refusal> {
    // SAFETY: the pointer comes from a slice, with its length.
    answer::letter(unsafe { ffi::hyl_letter(buffer.as_ptr(), buffer.len(), component, block) })
}
