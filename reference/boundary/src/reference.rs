//! The same rounds of calls on the reference. The state stands behind a
//! black box at each call, so that no work is drawn out of a loop.

use crate::ends::{self, Told};
use crate::{LOAD_LINE, Member, SHUTDOWN, Writer, mix, packets};
use model::answer::Refusal;
use model::jobs::{Fed, Job, List};
use model::journal::{self, BLOCK, Message, Tail};
use model::limits::JOB;
use model::load::{self, Generator, Load};
use model::packet::{self, Header};
use model::{Answer, member, plan};
use std::hint::black_box;
use std::io::Write;

/// Reads a packet: its fields, or the number of the refusal.
#[inline(never)]
pub fn read(packet: &[u8]) -> Result<Header, u8> {
    packet::read(packet).map_err(|refusal| refusal.number())
}

/// Writes a packet: how many bytes, or the number of the refusal.
#[inline(never)]
pub fn write(header: &Header, payload: &[u8], out: &mut [u8]) -> Result<usize, u8> {
    packet::write(header, payload, out).map_err(|refusal| refusal.number())
}

/// Plays a schedule to the front of the output; how many bytes it printed.
pub fn play(input: &[u8], out: &mut [u8]) -> usize {
    let room = out.len();
    let mut rest = out;
    model::play::play(input, &mut rest).expect("room for what is printed");
    room - rest.len()
}

/// The text of a whole load; `None` where n is refused.
pub fn load(seed: u32, n: u32, group: u32, events: u32) -> Option<Vec<u8>> {
    load::text(seed, n, group, events).ok()
}

/// Steps of the generator, each with its output.
#[inline(never)]
pub fn generator(seed: u32, rounds: u32) -> u64 {
    let mut generator = Generator { state: seed };
    (0..rounds).fold(0, |sum, _| {
        generator.step();
        mix(sum, generator.output().into())
    })
}

/// The next line of a load, to the front of the lent one: its size.
#[inline(never)]
fn load_next(load: &mut Load, line: &mut [u8; LOAD_LINE]) -> usize {
    let mut rest = &mut line[..];
    writeln!(rest, "{}", load.event()).expect("room for a line");
    LOAD_LINE - rest.len()
}

/// Lines of a load.
pub fn load_lines(seed: u32, n: u8, rounds: u32) -> u64 {
    let mut line = [0; LOAD_LINE];
    let mut load = Load::open(seed, n.into()).unwrap();
    (0..rounds).fold(0, |sum, _| {
        let size = load_next(&mut load, &mut line);
        sum + size as u64 + u64::from(line[size / 2])
    })
}

#[inline(never)]
fn read_list(sum: u64, list: &[u8]) -> u64 {
    packets(list).fold(sum, |sum, packet| match packet::read(packet) {
        Ok(header) => {
            let Header { kind, member, .. } = header;
            let Header { group, a, b, c, .. } = header;
            [kind.into(), member.into(), group, a, b, c]
                .iter()
                .fold(sum, |sum, &field: &u32| mix(sum, field.into()))
        }
        Err(refusal) => mix(sum, refusal.number().into()),
    })
}

/// Rounds of reading a list of packets.
pub fn read_rounds(packets: &[u8], rounds: u32) -> u64 {
    (0..rounds).fold(0, |sum, _| read_list(sum, black_box(packets)))
}

fn fed(sum: u64, answer: Fed) -> u64 {
    let code = match answer {
        Fed::Refused(refusal) => refusal.number().into(),
        Fed::Added => 64,
        Fed::Given(place) => mix(65, place as u64),
        Fed::None => 66,
    };
    mix(sum, code)
}

fn list_sum(sum: u64, list: &List) -> u64 {
    list.records.iter().fold(sum, |sum, job| {
        let head = [job.state.into(), job.member.into(), job.length];
        let sum = head.iter().fold(sum, |sum, &value| mix(sum, value.into()));
        job.bytes
            .iter()
            .fold(sum, |sum, &byte| mix(sum, byte.into()))
    })
}

/// The list whose first records are these.
fn list_of(records: &[u8]) -> List {
    let mut list = List::empty();
    let records = records.chunks_exact(6 + JOB);
    for (job, record) in list.records.iter_mut().zip(records) {
        let (&[state, member, a, b, c, d], bytes) = record.split_first_chunk().unwrap();
        *job = Job {
            state,
            member,
            length: u32::from_be_bytes([a, b, c, d]),
            bytes: bytes.try_into().unwrap(),
        };
    }
    list
}

/// Feeds, up to one that is cut off.
fn fed_messages(mut feeds: &[u8]) -> impl Iterator<Item = (u8, &[u8])> {
    std::iter::from_fn(move || {
        let (&[high, low, originator], rest) = feeds.split_first_chunk()?;
        let (payload, rest) = rest.split_at_checked(u16::from_be_bytes([high, low]).into())?;
        feeds = rest;
        Some((originator, payload))
    })
}

/// Rounds of feeding a work list, each time the same; then what is left.
#[inline(never)]
pub fn feed_rounds(records: &[u8], feeds: &[u8], rounds: u32) -> u64 {
    let start = list_of(records);
    let mut list = start.clone();
    let mut sum = 0;
    for _ in 0..rounds {
        list.clone_from(&start);
        for (originator, payload) in fed_messages(feeds) {
            sum = fed(sum, black_box(&mut list).feed(originator, payload));
        }
    }
    list_sum(sum, &list)
}

/// Takes of a member, each of which feeds a work list; then the list.
pub fn terminal_take(end: Member<'_>, calls: u32, out: &mut [u8]) -> u64 {
    let mut state: member::Member = ends::member(end, out);
    let mut list = List::empty();
    let (mut sum, mut feeding) = (0, 0);
    for _ in 0..calls {
        let (answer, written) = state.take(out);
        sum = Told::of((answer, written)).summed(sum);
        if let Answer::Took { originator, .. } = answer {
            feeding = fed(feeding, list.feed(originator, &out[..written]));
        }
    }
    mix(sum, list_sum(feeding, &list))
}

#[inline(never)]
fn journal_read_into(sum: u64, journal: &[u8]) -> u64 {
    match journal::read(journal) {
        Ok(found) => [
            found.blocks as u64,
            found.messages as u64,
            found.tail.last.into(),
            found.tail.free.into(),
        ]
        .into_iter()
        .fold(sum, mix),
        Err(refusal) => mix(sum, refusal.number().into()),
    }
}

/// Rounds of reading a journal.
pub fn journal_read(journal: &[u8], rounds: u32) -> u64 {
    (0..rounds).fold(0, |sum, _| journal_read_into(sum, black_box(journal)))
}

/// Reads the record at an index of a block.
pub fn journal_record(block: &[u8], at: usize, number: u32) -> u64 {
    let block: Result<&[u8; BLOCK], _> = block.try_into();
    match block
        .ok()
        .and_then(|block| journal::record_at(block, at, number))
    {
        Some(message) => [
            message.number.into(),
            message.originator.into(),
            message.count.into(),
            (at + journal::HEAD) as u64,
            message.payload.len() as u64,
        ]
        .into_iter()
        .fold(0, mix),
        None => 1,
    }
}

/// The messages of a list, up to one that is cut off.
fn messages(mut list: &[u8]) -> impl Iterator<Item = Message<'_>> {
    std::iter::from_fn(move || {
        let (&[n0, n1, n2, n3, originator, c0, c1, c2, c3, s0, s1], rest) =
            list.split_first_chunk()?;
        let (payload, rest) = rest.split_at_checked(u16::from_be_bytes([s0, s1]).into())?;
        list = rest;
        Some(Message {
            number: u32::from_be_bytes([n0, n1, n2, n3]),
            originator,
            count: u32::from_be_bytes([c0, c1, c2, c3]),
            payload,
        })
    })
}

/// Takes what a writer answered and its state into a running sum.
fn writer_sum(
    sum: u64,
    writer: &journal::Writer,
    answer: Result<usize, Refusal>,
    word: u64,
) -> u64 {
    let code = answer.map_or_else(|refusal| refusal.number().into(), |_| word);
    [
        code,
        writer.tail.last.into(),
        writer.tail.free.into(),
        writer.first.into(),
        writer.records as u64,
        writer.used as u64,
        answer.unwrap_or(0) as u64,
    ]
    .into_iter()
    .fold(sum, mix)
}

/// Rounds of handing a writer a list of messages, each time in the same state.
/// The blocks go to the front of the output, as far as it has room.
#[inline(never)]
pub fn journal_write(writer: Writer, list: &[u8], rounds: u32, out: &mut [u8]) -> u64 {
    let start = journal::Writer {
        tail: Tail {
            last: writer.last,
            free: writer.free,
        },
        first: writer.first,
        records: writer.records,
        used: writer.used,
    };
    let (mut hand, mut block) = ([0; BLOCK], [0; BLOCK]);
    let mut sum = 0;
    for _ in 0..rounds {
        let mut writer = start;
        let mut place = 0;
        for message in messages(list) {
            let (answer, word) = if message.originator == SHUTDOWN {
                (black_box(&mut writer).finish(&hand, &mut block), 57)
            } else {
                let writer = black_box(&mut writer);
                (writer.write(&message, &mut hand, &mut block), 48)
            };
            if answer == Ok(BLOCK) && out.len() - place >= BLOCK {
                out[place..place + BLOCK].copy_from_slice(&block);
                place += BLOCK;
            }
            sum = writer_sum(sum, &writer, answer, word);
        }
    }
    sum
}

/// Takes what planning or rewriting a journal answers into a running sum.
fn laid(sum: u64, answer: Result<usize, Refusal>) -> u64 {
    match answer {
        Ok(size) => mix(mix(sum, 68), size as u64),
        Err(refusal) => mix(sum, refusal.number().into()),
    }
}

/// Rounds of laying the plan of a journal in the output.
#[inline(never)]
pub fn plan(journal: &[u8], rounds: u32, out: &mut [u8]) -> u64 {
    (0..rounds).fold(0, |sum, _| laid(sum, plan::plan(black_box(journal), out)))
}

/// Rounds of laying the rewritten journal in the output.
#[inline(never)]
pub fn rewrite(journal: &[u8], rounds: u32, out: &mut [u8]) -> u64 {
    (0..rounds).fold(0, |sum, _| {
        laid(sum, plan::rewrite(black_box(journal), out))
    })
}
