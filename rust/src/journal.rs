//! Taken messages in blocks on the card, and the plan that they make.

use crate::ffi::{self, code};
use crate::{BLOCK, Refusal, no_such, worded};

/// A journal's writer, with its block in hand.
#[derive(Clone)]
pub struct Writer {
    state: ffi::Writer,
    hand: [u8; BLOCK],
}

/// What reading a journal found before its first wrong block.
#[derive(Clone, Copy, Debug, PartialEq, Eq)]
pub struct Found {
    /// How many blocks are right: cut the file behind them before writing goes on.
    pub blocks: usize,
    /// How many messages they have.
    pub messages: usize,
}

/// A record of a block.
#[derive(Clone, Copy, Debug, PartialEq, Eq)]
pub struct Record<'b> {
    /// The message's place in the order.
    pub number: u32,
    /// The member that submitted it.
    pub originator: u8,
    /// Which of that member's messages it is.
    pub count: u32,
    /// What it says.
    pub payload: &'b [u8],
    /// The index behind the record.
    pub end: usize,
}

impl Default for Writer {
    fn default() -> Self {
        Self::new()
    }
}

impl Writer {
    /// The writer of an empty journal.
    #[must_use]
    pub const fn new() -> Self {
        Self {
            state: ffi::Writer {
                last: 0,
                free: 1,
                first: 0,
                records: 0,
                used: 10,
            },
            hand: [0; BLOCK],
        }
    }

    /// Writes a message that was taken. Where it does not fit the block in hand, that block comes back, to be put on the card.
    ///
    /// # Errors
    ///
    /// [`Refusal::WrongJournal`], if the message may not be in a journal or not follow the last.
    ///
    /// ```
    /// use warghytes::{read, Refusal, Writer};
    ///
    /// let mut writer = Writer::new();
    /// let mut block = [0; 512];
    /// assert_eq!(writer.write(1, 0, 1, b"board", &mut block)?, None);
    /// assert_eq!(writer.write(3, 0, 2, b"board", &mut block), Err(Refusal::WrongJournal));
    /// let journal = writer.finish(&mut block)?.unwrap();
    /// let (found, mut writer) = read(journal)?;
    /// assert_eq!((found.blocks, found.messages), (1, 1));
    /// assert_eq!(writer.write(2, 0, 2, b"board", &mut [0; 512])?, None);
    /// # Ok::<(), Refusal>(())
    /// ```
    #[must_use = "a block that is not put on the card is lost"]
    pub fn write<'o>(
        &mut self,
        number: u32,
        originator: u8,
        count: u32,
        payload: &[u8],
        out: &'o mut [u8; BLOCK],
    ) -> Result<Option<&'o [u8; BLOCK]>, Refusal> {
        let Self { state, hand } = self;
        // SAFETY: all are lent, apart from each other, and the payload with its length.
        let answer = unsafe {
            ffi::warghytes_journal_write(
                state,
                number,
                originator,
                count,
                payload.as_ptr(),
                payload.len(),
                hand,
                out,
            )
        };
        Ok((worded(answer.code, code::KEPT, answer.number)? > 0).then_some(out))
    }

    /// At shutdown: the block in hand, if it has a record.
    ///
    /// # Errors
    ///
    /// None of a writer that was made here.
    #[must_use = "a block that is not put on the card is lost"]
    pub fn finish<'o>(
        &mut self,
        out: &'o mut [u8; BLOCK],
    ) -> Result<Option<&'o [u8; BLOCK]>, Refusal> {
        let Self { state, hand } = self;
        // SAFETY: all are lent, apart from each other.
        let answer = unsafe { ffi::warghytes_journal_finish(state, hand, out) };
        Ok((worded(answer.code, code::CLOSED, answer.number)? > 0).then_some(out))
    }

    /// The last number that it has.
    #[must_use]
    pub const fn last(&self) -> u32 {
        self.state.last
    }
}

/// Reads a journal: what stands before its first wrong block, and a writer that goes on behind it.
///
/// # Errors
///
/// [`Refusal::WrongJournal`], if its length is no multiple of a block's.
pub fn read(journal: &[u8]) -> Result<(Found, Writer), Refusal> {
    let mut writer = Writer::new();
    // SAFETY: journal and writer are lent, apart from each other, with its length.
    let told = unsafe {
        ffi::warghytes_journal_read(journal.as_ptr(), journal.len(), &raw mut writer.state)
    };
    let ffi::Found {
        code,
        blocks,
        messages,
    } = told;
    worded(code, code::READ, (Found { blocks, messages }, writer))
}

/// Reads one block behind what a writer has, for a journal that is read block by block. If it is right, the writer goes on behind it, with
/// nothing in hand, and how many messages it has comes back.
///
/// # Errors
///
/// None of a writer that was made here.
pub fn next(writer: &mut Writer, block: &[u8; BLOCK]) -> Result<Option<usize>, Refusal> {
    // SAFETY: writer and block are lent, apart from each other, with its length.
    let told =
        unsafe { ffi::warghytes_journal_next(&raw mut writer.state, block.as_ptr(), block.len()) };
    match told.code {
        code::RIGHT => Ok(Some(told.messages)),
        code::WRONG => Ok(None),
        code => Err(Refusal::of(code)),
    }
}

/// The record at an index of a block, under that number; the first stands at 10, and each next one at the end of the one before.
///
/// ```
/// use warghytes::{record, Refusal, Writer};
///
/// let mut writer = Writer::new();
/// let mut block = [0; 512];
/// let _ = writer.write(4, 2, 1, b"board", &mut block)?;
/// let block = writer.finish(&mut block)?.unwrap();
/// let first = record(block, 10, 4).unwrap();
/// assert_eq!((first.originator, first.count, first.payload, first.end), (2, 1, &b"board"[..], 22));
/// assert_eq!(record(block, first.end, 5), None);
/// # Ok::<(), Refusal>(())
/// ```
#[must_use]
pub fn record(block: &[u8; BLOCK], at: usize, number: u32) -> Option<Record<'_>> {
    // SAFETY: the block is lent with its length.
    let told = unsafe { ffi::warghytes_journal_record(block.as_ptr(), block.len(), at, number) };
    match told.code {
        code::RIGHT => Some(Record {
            number: told.number,
            originator: told.originator as u8,
            count: told.count,
            payload: &block[told.start..told.start + told.length],
            end: told.start + told.length,
        }),
        code::WRONG => None,
        code => no_such(code),
    }
}

/// The plan of a journal: of each unit its number and the length of its latest description, two bytes each, and the description.
///
/// # Errors
///
/// [`Refusal::WrongJournal`], [`Refusal::ManyUnits`], [`Refusal::NoRoom`].
///
/// ```
/// use warghytes::{plan, rewrite, Refusal, Writer};
///
/// let mut writer = Writer::new();
/// let mut block = [0; 512];
/// let _ = writer.write(1, 0, 1, b"\x03\x00\x07board", &mut block)?;
/// let journal = writer.finish(&mut block)?.unwrap();
/// let mut out = [0; 600];
/// assert_eq!(plan(journal, &mut out)?, b"\x00\x07\x00\x05board");
/// assert_eq!(rewrite(journal, &mut out)?.len(), 512);
/// assert_eq!(plan(journal, &mut []), Err(Refusal::NoRoom));
/// # Ok::<(), Refusal>(())
/// ```
pub fn plan<'o>(journal: &[u8], out: &'o mut [u8]) -> Result<&'o [u8], Refusal> {
    // SAFETY: journal and output are lent, apart from each other, with their lengths.
    let answer = unsafe {
        ffi::warghytes_plan(journal.as_ptr(), journal.len(), out.as_mut_ptr(), out.len())
    };
    let size = worded(answer.code, code::BYTES, answer.number)?;
    Ok(&out[..size])
}

/// The journal rewritten to the fewest records with the same plan.
///
/// # Errors
///
/// [`Refusal::WrongJournal`], [`Refusal::ManyUnits`], [`Refusal::NoRoom`].
pub fn rewrite<'o>(journal: &[u8], out: &'o mut [u8]) -> Result<&'o [u8], Refusal> {
    // SAFETY: journal and output are lent, apart from each other, with their lengths.
    let answer = unsafe {
        ffi::warghytes_rewrite(journal.as_ptr(), journal.len(), out.as_mut_ptr(), out.len())
    };
    let size = worded(answer.code, code::BYTES, answer.number)?;
    Ok(&out[..size])
}
