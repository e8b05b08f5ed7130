//! Plays a schedule: one event a line in, one answer a line out.

use crate::answer::Answer;
use crate::group::{Event, Group, Lists, Outcome};
use crate::jobs::GIVEN;
use std::io::{self, BufRead, BufReader, BufWriter, Read, Write};

/// Packets written, at most.
pub const PACKETS: usize = 200;
/// Characters of a line, at most.
const LINE: usize = 1000;

/// Plays the schedule in `input` to its end. Input and output go line by
/// line, so their size has no limit.
pub fn play(input: impl Read, output: impl Write) -> io::Result<()> {
    let mut lines = Lines::new(input);
    let mut output = BufWriter::new(output);
    if let Some(mut group) = open(&mut lines, &mut output)? {
        events(&mut group, &mut lines, &mut output, |_, _| ())?;
        closing_line(&group, &mut output)?;
    }
    output.flush()
}

/// Plays the schedule in `input` to its end, and prints what is left then.
pub fn inspect(input: impl Read, output: impl Write) -> io::Result<()> {
    let mut lines = Lines::new(input);
    let mut output = BufWriter::new(output);
    if let Some(mut group) = open(&mut lines, &mut output)? {
        let mut lists = Lists::empty(group.members.len());
        let feed = |event: &Event, outcome: &Outcome| {
            lists.follow(event, Some(outcome));
        };
        events(&mut group, &mut lines, &mut io::sink(), feed)?;
        table(&group, &mut output)?;
        work_lists(&lists, &mut output)?;
    }
    output.flush()
}

/// Opens the group of the first line; where it opens none, prints why.
fn open(lines: &mut Lines<impl Read>, output: &mut impl Write) -> io::Result<Option<Group>> {
    match lines.next_line()?.and_then(Line::opening) {
        None => writeln!(output, "bad line")?,
        Some((n, group, resilience)) => match Group::resilient(n, group, resilience) {
            Err(refusal) => writeln!(output, "{}", Answer::Refused(refusal))?,
            Ok(group) => return Ok(Some(group)),
        },
    }
    Ok(None)
}

/// Lets the events of the lines happen and prints their answers; `done` is
/// told each event that was not of something absent.
fn events(
    group: &mut Group,
    lines: &mut Lines<impl Read>,
    output: &mut impl Write,
    mut done: impl FnMut(&Event, &Outcome),
) -> io::Result<()> {
    let mut number = 0u64;
    while let Some(line) = lines.next_line()? {
        number += 1;
        write!(output, "{number} ")?;
        let Some(event) = line.event() else {
            return writeln!(output, "bad line");
        };
        if group.packets.len() >= PACKETS {
            return writeln!(output, "no space");
        }
        match group.step(&event) {
            None => writeln!(output, "absent")?,
            Some(outcome) => {
                done(&event, &outcome);
                answer_line(&outcome, output)?;
            }
        }
    }
    Ok(())
}

pub(crate) fn answer_line(outcome: &Outcome, output: &mut impl Write) -> io::Result<()> {
    write!(output, "{}", outcome.answer)?;
    if let Answer::Took { more, .. } = outcome.answer {
        output.write_all(b" ")?;
        hex(&outcome.payload, output)?;
        output.write_all(if more { b" more" } else { b" last" })?;
    }
    if let Some(index) = outcome.packet {
        write!(output, " {index}")?;
    }
    writeln!(output)
}

/// Two digits a byte; `-` for none.
fn hex(bytes: &[u8], output: &mut impl Write) -> io::Result<()> {
    if bytes.is_empty() {
        output.write_all(b"-")?;
    }
    bytes
        .iter()
        .try_for_each(|byte| write!(output, "{byte:02x}"))
}

fn closing_line(group: &Group, output: &mut impl Write) -> io::Result<()> {
    let sequencer = &group.sequencer;
    let (top, floor) = (sequencer.top, sequencer.floor);
    write!(output, "top {top} floor {floor} taken")?;
    for member in &group.members {
        write!(output, " {}", member.taken)?;
    }
    writeln!(output)
}

/// A heading, and then a line a terminal.
fn table(group: &Group, output: &mut impl Write) -> io::Result<()> {
    writeln!(output, "terminal taken row submitted waiting repeats")?;
    for (terminal, member) in group.members.iter().enumerate() {
        let (taken, row) = (member.taken, member.reach());
        let (submitted, waiting) = (member.submitted, u32::from(member.waiting));
        let repeats = group.sequencer.repeats[terminal];
        writeln!(
            output,
            "{terminal} {taken} {row} {submitted} {waiting} {repeats}"
        )?;
    }
    Ok(())
}

/// A heading, and then a line a job, terminal by terminal.
fn work_lists(lists: &Lists, output: &mut impl Write) -> io::Result<()> {
    writeln!(output, "terminal place holder job")?;
    for (terminal, list) in lists.iter().enumerate() {
        for (place, job) in list.jobs().iter().enumerate() {
            write!(output, "{terminal} {place} ")?;
            if job.state == GIVEN {
                write!(output, "{} ", job.member)?;
            } else {
                output.write_all(b"waiting ")?;
            }
            hex(job.as_slice(), output)?;
            writeln!(output)?;
        }
    }
    Ok(())
}

/// Reads a first line, given without its line feed: n, the group number and
/// the resilience degree.
pub fn opening(line: &[u8]) -> Option<(u32, u32, u32)> {
    Line(line).opening()
}

/// Reads the line of an event, given without its line feed.
pub fn event(line: &[u8]) -> Option<Event> {
    Line(line).event()
}

/// Lines of an input, at most one of them in memory, and that cut off.
pub(crate) struct Lines<R> {
    input: BufReader<R>,
    line: Vec<u8>,
}

impl<R: Read> Lines<R> {
    pub(crate) fn new(input: R) -> Self {
        let input = BufReader::new(input);
        let line = Vec::with_capacity(LINE + 1);
        Lines { input, line }
    }

    /// The next line; `None` at the end of the input. A line that is too
    /// long is cut after one character too many; what follows is not read,
    /// since such a line ends the events.
    pub(crate) fn next_line(&mut self) -> io::Result<Option<Line<'_>>> {
        self.line.clear();
        let mut front = (&mut self.input).take(LINE as u64 + 1);
        if front.read_until(b'\n', &mut self.line)? == 0 {
            return Ok(None);
        }
        if self.line.last() == Some(&b'\n') {
            self.line.pop();
        }
        Ok(Some(Line(&self.line)))
    }
}

/// A line without its line feed.
pub(crate) struct Line<'a>(pub(crate) &'a [u8]);

impl<'a> Line<'a> {
    /// The first line: n, the group number and, if it has one, the resilience
    /// degree, else 0.
    pub(crate) fn opening(self) -> Option<(u32, u32, u32)> {
        match self.fields()? {
            [Some(b"N"), Some(n), Some(group), resilience, None] => Some((
                number(n)?,
                number(group)?,
                number(resilience.unwrap_or(b"0"))?,
            )),
            _ => None,
        }
    }

    /// An event.
    fn event(self) -> Option<Event> {
        Some(match self.fields()? {
            [Some(b"S"), Some(i), Some(hex), None] => Event::Submit {
                member: index(i)?,
                payload: payload(hex)?,
            },
            [Some(b"R"), Some(i), None, None] => Event::Repeat { member: index(i)? },
            [Some(b"T"), Some(i), None, None] => Event::Take { member: index(i)? },
            [Some(b"A"), Some(i), None, None] => Event::Status { member: index(i)? },
            [Some(b"P"), None, None, None] => Event::Poll,
            [Some(b"C"), Some(s), None, None] => Event::Copy { number: number(s)? },
            [Some(b"M"), Some(k), Some(i), None] => Event::ToMember {
                packet: index(k)?,
                member: index(i)?,
            },
            [Some(b"Q"), Some(k), None, None] => Event::ToSequencer { packet: index(k)? },
            _ => return None,
        })
    }

    /// The first fields, one more than a line may have. `None` if the line is
    /// too long.
    pub(crate) fn fields<const N: usize>(&self) -> Option<[Option<&'a [u8]>; N]> {
        let mut fields = self.0.split(|&byte| byte == b' ');
        (self.0.len() <= LINE).then(|| std::array::from_fn(|_| fields.next()))
    }
}

/// Digits, up to the largest number.
pub fn number(field: &[u8]) -> Option<u32> {
    let (&first, rest) = field.split_first()?;
    rest.iter().try_fold(digit(first)?, |value, &byte| {
        value.checked_mul(10)?.checked_add(digit(byte)?)
    })
}

fn digit(byte: u8) -> Option<u32> {
    char::from(byte).to_digit(10)
}

pub(crate) fn index(field: &[u8]) -> Option<usize> {
    number(field).map(|number| number as usize)
}

/// Lower case hex, two digits a byte; `-` for empty.
pub(crate) fn payload(field: &[u8]) -> Option<Vec<u8>> {
    if field == b"-" {
        return Some(Vec::new());
    }
    let (pairs @ [_, ..], []) = field.as_chunks::<2>() else {
        return None;
    };
    pairs
        .iter()
        .map(|&[high, low]| Some(nibble(high)? << 4 | nibble(low)?))
        .collect()
}

fn nibble(byte: u8) -> Option<u8> {
    match byte {
        b'0'..=b'9' => Some(byte - b'0'),
        b'a'..=b'f' => Some(byte - b'a' + 10),
        _ => None,
    }
}
