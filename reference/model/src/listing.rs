//! A journal as text: a line a message, `number originator count hex`, with
//! `-` for an empty payload; and its plan, a line a unit, `unit hex`.

use crate::answer::{Answer, Refusal};
use crate::journal::{self, BLOCK, Found, Message, Tail, Writer};
use crate::limits::{PLAN, UNITS};
use crate::plan;
use crate::play::{Line, Lines, number, payload};
use std::ffi::OsString;
use std::fs::{self, File};
use std::io::{self, BufWriter, Read, Seek, SeekFrom, Write};
use std::path::Path;

/// Bytes of a file that is planned or rewritten, at most.
pub const FILE: usize = 1 << 20;

/// Prints a journal's messages up to the first wrong block, and how many
/// blocks and messages there are.
pub fn list(journal: &[u8], output: impl Write) -> io::Result<()> {
    let mut output = BufWriter::new(output);
    match journal::read(journal) {
        Err(refusal) => writeln!(output, "{}", Answer::Refused(refusal))?,
        Ok(found) => {
            for message in journal::messages(journal, found.blocks) {
                message_line(&message, &mut output)?;
            }
            writeln!(output, "{}", totals(&found))?;
        }
    }
    output.flush()
}

/// The last line of a listing.
pub fn totals(found: &Found) -> String {
    format!("blocks {} messages {}", found.blocks, found.messages)
}

/// Prints a journal's plan.
pub fn plan(journal: &[u8], output: impl Write) -> io::Result<()> {
    let mut output = BufWriter::new(output);
    if let Some(rows) = laid(plan::plan, PLAN, journal, &mut output)? {
        let mut rest = &rows[..];
        while let Some((&[a, b, c, d], behind)) = rest.split_first_chunk() {
            let (text, behind) = behind.split_at(u16::from_be_bytes([c, d]).into());
            writeln!(output, "{} {}", u16::from_be_bytes([a, b]), hex(text))?;
            rest = behind;
        }
    }
    output.flush()
}

/// The rewritten journal, and tells what is in it. `None` where nothing is
/// written, which is told too.
pub fn rewritten(journal: &[u8], output: &mut impl Write) -> io::Result<Option<Vec<u8>>> {
    // A unit has a record, and a record fits a block.
    let bytes = laid(plan::rewrite, UNITS * BLOCK, journal, output)?;
    if let Some(bytes) = &bytes {
        writeln!(output, "{}", totals(&journal::found(bytes)))?;
    }
    Ok(bytes)
}

/// Rewrites a journal to a file. The bytes go to another one beside it, which
/// takes its name once they are on the card.
pub fn rewrite(journal: &[u8], new: &Path, mut output: impl Write) -> io::Result<()> {
    let mut told = Vec::new();
    if let Some(bytes) = rewritten(journal, &mut told)? {
        let mut beside = OsString::from(new);
        beside.push(format!(".{}", std::process::id()));
        let stored = File::create_new(&beside).and_then(|mut file| {
            file.write_all(&bytes)?;
            file.sync_all()
        });
        let renamed = stored.and_then(|()| fs::rename(&beside, new));
        if let Err(error) = renamed {
            // What failed is told, not that nothing can be removed.
            let _ = fs::remove_file(&beside);
            return Err(error);
        }
    }
    output.write_all(&told)
}

/// A call that lays bytes in a lent output.
type Lays = fn(&[u8], &mut [u8]) -> Result<usize, Refusal>;

/// What a call lays of a journal in so many bytes. Where it lays nothing, that
/// is told, and so is a journal that is too long.
fn laid(
    call: Lays,
    room: usize,
    journal: &[u8],
    output: &mut impl Write,
) -> io::Result<Option<Vec<u8>>> {
    if journal.len() > FILE {
        writeln!(output, "longer than {FILE} bytes")?;
        return Ok(None);
    }
    let mut out = vec![0; room];
    match call(journal, &mut out) {
        Ok(size) => {
            out.truncate(size);
            Ok(Some(out))
        }
        Err(refusal) => told(refusal, output).map(|()| None),
    }
}

/// Bytes as two digits each, or `-` for none.
fn hex(bytes: &[u8]) -> String {
    if bytes.is_empty() {
        return "-".into();
    }
    bytes.iter().map(|byte| format!("{byte:02x}")).collect()
}

/// Prints a message's line.
pub fn message_line(message: &Message, output: &mut impl Write) -> io::Result<()> {
    let (number, originator, count) = (message.number, message.originator, message.count);
    writeln!(
        output,
        "{number} {originator} {count} {}",
        hex(message.payload)
    )
}

/// Writes the messages of the lines in `input` behind a tail, each block to
/// `put` when it is full, and the last at the end of the input. A refused
/// message is told and left out; a line of another form is told and ends the
/// input.
pub fn write(
    tail: Tail,
    input: impl Read,
    mut put: impl FnMut(&[u8]) -> io::Result<()>,
    mut output: impl Write,
) -> io::Result<()> {
    let mut lines = Lines::new(input);
    let mut writer = Writer::after(tail);
    let (mut hand, mut out) = ([0; BLOCK], [0; BLOCK]);
    while let Some(line) = lines.next_line()? {
        let Some((number, originator, count, payload)) = fields(&line) else {
            writeln!(output, "bad line")?;
            break;
        };
        let message = Message {
            number,
            originator,
            count,
            payload: &payload,
        };
        match writer.write(&message, &mut hand, &mut out) {
            Ok(0) => (),
            Ok(written) => put(&out[..written])?,
            Err(refusal) => told(refusal, &mut output)?,
        }
    }
    match writer.finish(&hand, &mut out) {
        Ok(0) => Ok(()),
        Ok(written) => put(&out[..written]),
        Err(refusal) => told(refusal, &mut output),
    }
}

/// Appends the messages of the lines in `input` to the journal in a file: what
/// stands behind its right blocks is cut off, and every block is on the card
/// before the next is written. Then what the file has is told.
pub fn append(file: &mut File, input: impl Read, mut output: impl Write) -> io::Result<()> {
    let mut journal = Vec::new();
    file.read_to_end(&mut journal)?;
    let found = journal::found(&journal);
    file.set_len((found.blocks * BLOCK) as u64)?;
    file.seek(SeekFrom::End(0))?;
    let put = |block: &[u8]| {
        file.write_all(block)?;
        file.sync_all()
    };
    write(found.tail, input, put, &mut output)?;
    journal.clear();
    file.seek(SeekFrom::Start(0))?;
    file.read_to_end(&mut journal)?;
    writeln!(output, "{}", totals(&journal::found(&journal)))
}

fn told(refusal: Refusal, output: &mut impl Write) -> io::Result<()> {
    writeln!(output, "{}", Answer::Refused(refusal))
}

/// A message's line. An originator over 255 becomes 255, which no record may
/// have either.
fn fields(line: &Line<'_>) -> Option<(u32, u8, u32, Vec<u8>)> {
    let [Some(s), Some(m), Some(c), Some(hex), None] = line.fields()? else {
        return None;
    };
    let originator = number(m)?.min(u32::from(u8::MAX)) as u8;
    Some((number(s)?, originator, number(c)?, payload(hex)?))
}
