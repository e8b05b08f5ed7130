//! Plays a schedule with resets: as `play` does, but events at a sequencer
//! name its terminal, and terminals invite and make groups.

use crate::answer::Answer;
use crate::members;
use crate::play::{Line, Lines, PACKETS, answer_line, index, number, payload};
use crate::world::{Event, World};
use std::io::{self, BufWriter, Read, Write};

/// Plays the schedule in `input` to its end. Input and output go line by
/// line, so their size has no limit.
pub fn recover(input: impl Read, output: impl Write) -> io::Result<()> {
    let mut lines = Lines::new(input);
    let mut output = BufWriter::new(output);
    match lines.next_line()?.and_then(Line::opening) {
        None => writeln!(output, "bad line")?,
        Some((n, group, resilience)) => match World::fresh(n, group, resilience) {
            Err(refusal) => writeln!(output, "{}", Answer::Refused(refusal))?,
            Ok(mut world) => {
                events(&mut world, &mut lines, &mut output)?;
                closing_lines(&world, &mut output)?;
            }
        },
    }
    output.flush()
}

/// Lets the events of the lines happen and prints their answers.
fn events(
    world: &mut World,
    lines: &mut Lines<impl Read>,
    output: &mut impl Write,
) -> io::Result<()> {
    let mut number = 0u64;
    while let Some(line) = lines.next_line()? {
        number += 1;
        write!(output, "{number} ")?;
        let Some(event) = read(&line) else {
            return writeln!(output, "bad line");
        };
        if world.packets.len() >= PACKETS {
            return writeln!(output, "no space");
        }
        match world.step(&event) {
            None => writeln!(output, "absent")?,
            Some(outcome) => answer_line(&outcome, output)?,
        }
    }
    Ok(())
}

/// A line a terminal, and one behind it if it has a sequencer.
fn closing_lines(world: &World, output: &mut impl Write) -> io::Result<()> {
    for (terminal, state) in world.terminals.iter().enumerate() {
        let member = &state.member;
        let (group, taken, elected) = (member.group, member.taken, member.elected);
        write!(
            output,
            "terminal {terminal} group {group} taken {taken} elected {elected} survivors"
        )?;
        for survivor in (0..16).filter(|&i| members::has(member.survivors, i)) {
            write!(output, " {survivor}")?;
        }
        writeln!(output)?;
        if state.sequencing {
            let sequencer = &state.sequencer;
            let (group, top, floor) = (sequencer.group, sequencer.top, sequencer.floor);
            let frozen = if state.frozen { " frozen" } else { "" };
            writeln!(
                output,
                "sequencer {terminal} group {group} top {top} floor {floor}{frozen}"
            )?;
        }
    }
    Ok(())
}

/// Reads the line of an event, given without its line feed.
pub fn event(line: &[u8]) -> Option<Event> {
    read(&Line(line))
}

fn read(line: &Line<'_>) -> Option<Event> {
    Some(match line.fields()? {
        [Some(b"S"), Some(i), Some(hex), None] => Event::Submit {
            terminal: index(i)?,
            payload: payload(hex)?,
        },
        [Some(b"R"), Some(i), None, None] => Event::Repeat {
            terminal: index(i)?,
        },
        [Some(b"T"), Some(i), None, None] => Event::Take {
            terminal: index(i)?,
        },
        [Some(b"A"), Some(i), None, None] => Event::Status {
            terminal: index(i)?,
        },
        [Some(b"P"), Some(i), None, None] => Event::Poll {
            terminal: index(i)?,
        },
        [Some(b"C"), Some(i), Some(s), None] => Event::Copy {
            terminal: index(i)?,
            number: number(s)?,
        },
        [Some(b"M"), Some(k), Some(i), None] => Event::ToMember {
            packet: index(k)?,
            terminal: index(i)?,
        },
        [Some(b"Q"), Some(k), Some(i), None] => Event::ToSequencer {
            packet: index(k)?,
            terminal: index(i)?,
        },
        [Some(b"I"), Some(i), Some(group), None] => Event::Invite {
            terminal: index(i)?,
            number: number(group)?,
        },
        [Some(b"G"), Some(i), Some(demand), None] => Event::Make {
            terminal: index(i)?,
            demand: number(demand)?,
        },
        _ => return None,
    })
}
