//! Random packets, packet lists, feeds of work lists, schedules, loads and
//! journals through the proved library and through the reference, and schedules
//! with resets through the proved program. A difference is printed with its
//! seed, shrunk.

use boundary::ends::{self, Membership, Sequencing, Told};
use boundary::proved::{MemberState, SequencerState};
use boundary::shrink::{plain, shrink};
use boundary::{
    FINISH, LINE, Member, Sequencer, Writer, feeds, list, messages, proved, records, reference,
};
use model::jobs::{ADD, FETCH, Fed, GIVEN, Job, List, WAITING};
use model::journal::{self, BLOCK, COMPACT, MARK, Message, NUMBER, RECORDS, SUM, Tail};
use model::limits::{HEADER, HISTORY, JOB, JOBS, LARGEST, MEMBERS, PACKET, PAYLOAD, UNITS, WINDOW};
use model::packet::{self, Header};
use model::plan::SET;
use model::{limits, member, sequencer};
use schedules::random::Random;
use std::collections::BTreeMap;
use std::process::ExitCode;
use std::time::Instant;

mod recover;
mod terminals;

/// A case by its seed: the refusal that the reference answers, 0 for none,
/// and a difference.
type Case = fn(u64) -> (u8, Option<String>);

/// Differences that are printed.
const PRINTED: u64 = 20;

/// Packets, payloads and outputs of any length are shorter: some lie over
/// every limit.
const LENGTHS: usize = PACKET + 41;

struct Options {
    packets: u64,
    lists: u64,
    schedules: u64,
    loads: u64,
    journals: u64,
    seed: u64,
}

fn options() -> Option<Options> {
    let mut options = Options {
        packets: 300_000,
        lists: 20_000,
        schedules: 500,
        loads: 1_000,
        journals: 5_000,
        seed: 1,
    };
    let mut words = std::env::args().skip(1);
    while let Some(word) = words.next() {
        let value = words.next()?.parse().ok()?;
        match word.as_str() {
            "--packets" => options.packets = value,
            "--lists" => options.lists = value,
            "--schedules" => options.schedules = value,
            "--loads" => options.loads = value,
            "--journals" => options.journals = value,
            "--seed" => options.seed = value,
            _ => return None,
        }
    }
    Some(options)
}

fn main() -> ExitCode {
    let Some(options) = options() else {
        eprintln!(
            "usage: fuzz [--packets N] [--lists N] [--schedules N] [--loads N] [--journals N] [--seed N]"
        );
        return ExitCode::FAILURE;
    };
    let mut differences = 0u64;
    let mut run = |name: &str, cases: u64, case: Case| {
        let start = Instant::now();
        let mut answers: BTreeMap<u8, u64> = BTreeMap::new();
        for seed in (options.seed..).take(cases as usize) {
            let (answer, difference) = case(seed);
            *answers.entry(answer).or_default() += 1;
            if let Some(difference) = difference {
                differences += 1;
                if differences <= PRINTED {
                    println!("{name}, seed {seed}: {difference}");
                }
            }
        }
        let seconds = start.elapsed().as_secs_f64();
        println!("{cases} {name} in {seconds:.1} s");
        if answers.len() > 1 {
            println!("  by refusal, 0 for none: {answers:?}");
        }
    };
    run("packets read", options.packets, reading);
    run("packets written", options.packets, writing);
    run("lists to a sequencer", options.lists, |seed| {
        (0, sequencing(seed))
    });
    run("lists to a member", options.lists, |seed| {
        (0, membership(seed))
    });
    run("sequencers of any bytes", options.lists, forged_sequencer);
    run("members of any bytes", options.lists, forged_member);
    run("terminals with resets", options.lists, terminals::resets);
    run("feeds of a work list", options.lists, feeding);
    run("takes that feed a work list", options.lists, |seed| {
        (0, terminal(seed))
    });
    run("schedules", options.schedules, |seed| (0, playing(seed)));
    run("schedules with resets", options.schedules, |seed| {
        (0, recover::recovering(seed))
    });
    run("loads of every n", options.loads, loading);
    run("journals written", options.journals, journal_writing);
    run("journals read", options.journals, journal_reading);
    run("journals planned and rewritten", options.journals, planning);
    println!("{differences} differences");
    if differences == 0 {
        ExitCode::SUCCESS
    } else {
        ExitCode::FAILURE
    }
}

/// A number that is likely to lie at an edge.
fn number(random: &mut Random) -> u32 {
    match random.below(8) {
        0 => 0,
        1 => 1,
        2 => LARGEST,
        3 => LARGEST - 1,
        4 => random.bits() as u32,
        _ => random.below(10) as u32,
    }
}

fn header(random: &mut Random) -> Header {
    let kind = random.one(&[0, 1, 1, 1, 2, 2, 2, 3, 3, 4, 4, 5, 5, 6, 255]);
    let [mut a, mut b, mut c] = [(); 3].map(|()| number(random));
    // Two thirds of the fields obey their kind.
    if random.below(3) > 0 {
        match kind {
            1 => (b, c) = (b.max(1), 0),
            2 => (a, b, c) = (a.max(1), b.max(1), c.min(a.max(1) - 1)),
            3 => {
                a = a.min(LARGEST - 1);
                b = b.max(a + 1);
                c = c.max(b);
            }
            4 => (b, c) = (0, 0),
            _ => (b, c) = (0, c.min(a)),
        }
    }
    let member = match random.below(4) {
        0 => random.bits() as u8,
        1 => random.below(17) as u8,
        _ => 0,
    };
    Header {
        kind,
        member,
        group: number(random),
        a,
        b,
        c,
    }
}

/// A packet: laid out by hand, so that it need not be an allowed one, and
/// then left alone, damaged, cut or made longer; or any bytes.
fn bytes(random: &mut Random) -> Vec<u8> {
    if random.percent(10) {
        let length = random.below(LENGTHS);
        return random.bytes(length);
    }
    let header = header(random);
    let length = match random.below(6) {
        0..3 => 0,
        3 => random.one(&[1, PAYLOAD - 1, PAYLOAD, PAYLOAD + 1]),
        _ => random.below(LENGTHS - HEADER),
    };
    let mut packet = vec![header.kind, header.member];
    packet.extend((length as u16).to_be_bytes());
    for word in [header.group, header.a, header.b, header.c] {
        packet.extend(word.to_be_bytes());
    }
    packet.extend(random.bytes(length));
    match random.below(8) {
        0 => {
            let at = random.below(packet.len());
            packet[at] ^= 1 << random.below(8);
        }
        1 => packet.truncate(random.below(packet.len() + 1)),
        2 => {
            let more = random.below(20);
            packet.extend(random.bytes(more));
        }
        3 => {
            let at = random.below(HEADER);
            packet[at] = random.bits() as u8;
        }
        _ => (),
    }
    packet
}

fn reading(seed: u64) -> (u8, Option<String>) {
    let differs = |packet: &[u8]| proved::read(packet) != reference::read(packet);
    let packet = bytes(&mut Random::seeded(seed));
    let refusal = reference::read(&packet).err().unwrap_or(0);
    if !differs(&packet) {
        return (refusal, None);
    }
    let packet = plain(&shrink(&packet, differs), &0, differs);
    let (here, there) = (proved::read(&packet), reference::read(&packet));
    let difference = format!("{packet:02x?} is {here:?}, in the reference {there:?}");
    (refusal, Some(difference))
}

fn writing(seed: u64) -> (u8, Option<String>) {
    let random = &mut Random::seeded(seed);
    let header = header(random);
    let length = match random.below(4) {
        0 => 0,
        1 => random.one(&[1, PAYLOAD - 1, PAYLOAD, PAYLOAD + 1]),
        _ => random.below(LENGTHS),
    };
    let payload = random.bytes(length);
    let room = match random.below(4) {
        0 => random.below(LENGTHS),
        1 => random.one(&[0, PACKET - 1, PACKET, PACKET + 1]),
        _ => PACKET + random.below(40),
    };
    let lent = random.bytes(room);
    let written = |payload: &[u8]| {
        let (mut here, mut there) = (lent.clone(), lent.clone());
        let answers = (
            proved::write(&header, payload, &mut here),
            reference::write(&header, payload, &mut there),
        );
        (answers, here, there)
    };
    let differs = |payload: &[u8]| {
        let ((answer, other), here, there) = written(payload);
        answer != other || here != there
    };
    let refusal = written(&payload).0.1.err().unwrap_or(0);
    if !differs(&payload) {
        return (refusal, None);
    }
    let payload = plain(&shrink(&payload, differs), &0, differs);
    let ((answer, other), ..) = written(&payload);
    let difference = format!(
        "{header:?} {payload:02x?} to {room} bytes is {answer:?}, in the reference {other:?}"
    );
    (refusal, Some(difference))
}

/// A lent output: mostly with enough room.
fn lent(random: &mut Random) -> Vec<u8> {
    let room = if random.percent(5) {
        random.below(PACKET)
    } else {
        PACKET + random.below(10)
    };
    random.bytes(room)
}

fn laid(kind: u8, member: u8, group: u32, [a, b, c]: [u32; 3], payload: &[u8]) -> Vec<u8> {
    let header = Header {
        kind,
        member,
        group,
        a,
        b,
        c,
    };
    let mut out = [0; PACKET];
    let length = packet::write(&header, payload, &mut out).unwrap_or(0);
    out[..length].to_vec()
}

/// A number near another one.
fn near(random: &mut Random, number: u32) -> u32 {
    match random.below(10) {
        0 => number.saturating_add(1),
        1 => number.saturating_sub(1),
        2 => random.below(40) as u32,
        3 => random.bits() as u32,
        _ => number,
    }
}

fn payload(random: &mut Random) -> Vec<u8> {
    let length = random.one(&[0, 0, 1, 2, 30, PAYLOAD]);
    random.bytes(length)
}

/// Packets as its members might send them, and others.
fn requests(random: &mut Random, n: u8, group: u32, resilience: u8) -> Vec<Vec<u8>> {
    let mut state: sequencer::Sequencer = Sequencing::opened(n, group, resilience);
    let many = random.below(90);
    (0..many)
        .map(|_| {
            let member = random.below(usize::from(n)) as u8;
            let count = state.counts[usize::from(member)];
            let (floor, accepted) = (state.floor, state.accepted);
            let taken = random.one(&[floor, floor, accepted, state.top, 0, floor + 1]);
            let packet = match random.below(if resilience == 0 { 21 } else { 30 }) {
                0 => bytes(random),
                1 => laid(4, member, near(random, group), [taken, 0, 0], &[]),
                2..4 => laid(4, member, group, [near(random, taken), 0, 0], &[]),
                4..6 => {
                    let first = near(random, taken.saturating_add(1));
                    let last = near(random, state.top);
                    laid(3, member, group, [taken, first, last], &[])
                }
                6 => laid(2, member, group, [1, 1, 0], &[]),
                7 => laid(1, near(random, n.into()) as u8, group, [0, 1, 0], &[]),
                20.. => {
                    let member = random.one(&[member, 1, resilience]);
                    let answered = random.one(&[state.top, accepted.saturating_add(1)]);
                    laid(7, member, group, [near(random, answered), 0, 0], &[])
                }
                _ => {
                    let next = near(random, count.saturating_add(1));
                    laid(1, member, group, [taken, next, 0], &payload(random))
                }
            };
            state.receive(&packet, &mut [0; PACKET]);
            packet
        })
        .collect()
}

/// A resilience degree that n allows, often 0.
fn resilience_of(random: &mut Random, n: u8) -> u8 {
    if random.percent(40) {
        0
    } else {
        random.below(n.into()) as u8
    }
}

fn sequencing(seed: u64) -> Option<String> {
    let random = &mut Random::seeded(seed);
    let n = 1 + random.below(16) as u8;
    let resilience = resilience_of(random, n);
    let group = number(random);
    let lent = lent(random);
    let packets = requests(random, n, group, resilience);
    let differs = |packets: &[Vec<u8>]| {
        let list = list(packets);
        let (mut here, mut there) = (lent.clone(), lent.clone());
        let end = Sequencer {
            n,
            group,
            resilience,
            heard: &[],
        };
        let sum = ends::sequencer_receive::<SequencerState>(end, &list, 1, &mut here);
        let other = ends::sequencer_receive::<sequencer::Sequencer>(end, &list, 1, &mut there);
        // The state after the list, and all repeat counts added up.
        let after = Sequencer {
            heard: &list,
            ..end
        };
        let left: SequencerState = ends::sequencer(after, &mut here);
        let others: sequencer::Sequencer = ends::sequencer(after, &mut there);
        sum != other
            || here != there
            || left.as_reference() != others
            || left.all_repeats() != others.all_repeats()
    };
    // Every list that ends earlier too, for a few ends.
    let cut = random.below(packets.len() + 1);
    let packets = [&packets[..cut], &packets]
        .into_iter()
        .find(|packets| differs(packets))?;
    let fewer = shrink(packets, differs);
    Some(format!(
        "n {n}, group {group}, r {resilience}, packets {fewer:02x?}"
    ))
}

/// Packets as its sequencer might send them, and others.
fn broadcasts(random: &mut Random, n: u8, group: u32) -> Vec<Vec<u8>> {
    let many = random.below(30);
    // Half of the numbers follow each other, so that rows are held.
    let mut following = 0;
    (0..many)
        .map(|_| {
            let member = random.below(usize::from(n)) as u8;
            let ahead = if random.percent(50) {
                following += 1;
                following
            } else {
                1 + random.below(19) as u32
            };
            match random.below(14) {
                0 => bytes(random),
                12.. => laid(8, 0, group, [near(random, ahead), 0, 0], &[]),
                1 => laid(2, member, near(random, group), [ahead, 1, 0], &[]),
                2 => laid(2, near(random, n.into()) as u8, group, [ahead, 1, 0], &[]),
                3 => laid(random.one(&[1, 3, 4, 7]), member, group, [0, 1, 1], &[]),
                4..6 => laid(5, 0, group, [near(random, ahead), 0, 0], &[]),
                _ => {
                    let number = near(random, ahead).max(1);
                    let count = near(random, number).max(1);
                    let kind = random.one(&[2, 6]);
                    laid(kind, member, group, [number, count, 0], &payload(random))
                }
            }
        })
        .collect()
}

/// Broadcasts of the first numbers, of which some are the member's own.
fn own(random: &mut Random, n: u8, number_of: u8, group: u32) -> Vec<Vec<u8>> {
    let mut count = 0;
    (1..9)
        .map(|number| {
            let mut from = (number_of, number);
            if random.percent(70) {
                count += 1;
                from.1 = count;
            } else if random.percent(90) {
                from.0 = random.below(usize::from(n)) as u8;
            }
            laid(2, from.0, group, [number, from.1, 0], &payload(random))
        })
        .collect()
}

fn membership(seed: u64) -> Option<String> {
    let random = &mut Random::seeded(seed);
    let n = 1 + random.below(16) as u8;
    let resilience = resilience_of(random, n);
    let number_of = random.below(usize::from(n)) as u8;
    let group = number(random);
    let lent = lent(random);
    let text = payload(random);
    let packets = broadcasts(random, n, group);
    // The first numbers, of which some are taken.
    let first = list((1..9).map(|number| laid(2, 0, group, [number, number, 0], &text)));
    let takes = random.below(10) as u32;
    // Its own messages among others', in the order of their counts.
    let owns = list(own(random, n, number_of, group));
    let (waiting, submits) = (random.below(8) as u32, random.below(8) as u32);
    let differs = |packets: &[Vec<u8>]| {
        let list = list(packets);
        let (mut here, mut there) = (lent.clone(), lent.clone());
        let end = |heard, takes| Member {
            n,
            number: number_of,
            group,
            resilience,
            heard,
            takes,
        };
        let (fresh, after, taken) = (end(&[], 0), end(&list, 0), end(&first, takes));
        macro_rules! differs {
            ($call:ident($($word:expr),*)) => {{
                let sum = ends::$call::<MemberState>($($word,)* &mut here);
                sum != ends::$call::<member::Member>($($word,)* &mut there) || here != there
            }};
        }
        // The list, each other call in the state after it, and both where a row is held, of which
        // some were taken.
        differs!(member_receive(fresh, &list, 1))
            || differs!(member_receive(taken, &list, 1))
            || differs!(member_submit(taken, &text, 1, 1))
            || differs!(member_repeat(taken, &text, 1))
            || differs!(member_status(taken, 1))
            || differs!(member_queue(end(&owns, takes), &text, waiting, submits, 1))
            || differs!(member_queue(end(&list, takes), &text, waiting, submits, 1))
            || differs!(member_take(after, 9, 1))
            || differs!(member_submit(after, &text, 1, 1))
            || differs!(member_repeat(after, &text, 1))
            || differs!(member_status(after, 1))
            || {
                let left: MemberState = ends::member(after, &mut here);
                let other: member::Member = ends::member(after, &mut there);
                left.as_reference() != other
            }
    };
    if !differs(&packets) {
        return None;
    }
    let fewer = shrink(&packets, differs);
    Some(format!(
        "n {n}, member {number_of}, group {group}, r {resilience}, {takes} taken, packets {fewer:02x?}"
    ))
}

/// A call of a sequencer.
#[derive(Clone, Debug)]
enum SequencerCall {
    Receive(Vec<u8>),
    Poll,
    Copy(u32),
}

fn ask_sequencer<S: Sequencing>(state: &mut S, asked: &SequencerCall, out: &mut [u8]) -> Told {
    match asked {
        SequencerCall::Receive(packet) => state.receive(packet, out),
        SequencerCall::Poll => state.poll(out),
        SequencerCall::Copy(number) => state.copy(*number, out),
    }
}

/// A call of a member.
#[derive(Clone, Debug)]
enum MemberCall {
    Submit(Vec<u8>),
    Receive(Vec<u8>),
    Take,
    Repeat,
    Status,
}

fn ask_member<M: Membership>(state: &mut M, asked: &MemberCall, out: &mut [u8]) -> Told {
    match asked {
        MemberCall::Submit(payload) => state.submit(payload, out),
        MemberCall::Receive(packet) => state.receive(packet, out),
        MemberCall::Take => state.take(out),
        MemberCall::Repeat => state.repeat(out),
        MemberCall::Status => state.status(out),
    }
}

/// A number that differs from one, mostly by little.
fn other_number(random: &mut Random, number: u32) -> u32 {
    match random.below(5) {
        0 => number.wrapping_add(1),
        1 => number.wrapping_sub(1),
        2 => number ^ 1 << random.below(32),
        3 => 0,
        _ => random.bits() as u32,
    }
}

fn other_byte(random: &mut Random, byte: u8) -> u8 {
    match random.below(4) {
        0 => byte.wrapping_add(1),
        1 => byte ^ 1 << random.below(8),
        2 => 0,
        _ => random.bits() as u8,
    }
}

fn change_number(random: &mut Random, number: &mut u32) {
    *number = other_number(random, *number);
}

fn change_mask(random: &mut Random, mask: &mut u16) {
    *mask = other_number(random, (*mask).into()) as u16;
}

fn change_byte(random: &mut Random, byte: &mut u8) {
    *byte = other_byte(random, *byte);
}

/// Changes one number or byte of a sequencer.
fn change_sequencer(random: &mut Random, state: &mut SequencerState) {
    let (member, place) = (random.below(MEMBERS), random.below(HISTORY));
    let at = random.below(PAYLOAD);
    match random.below(18) {
        0 => change_byte(random, &mut state.n),
        12 => change_byte(random, &mut state.resilience),
        15 => change_mask(random, &mut state.survivors),
        16 => change_byte(random, &mut state.elected),
        17 => lose(state, member),
        13 => change_number(random, &mut state.accepted),
        14 => change_mask(random, &mut state.marks[place]),
        1 => change_number(random, &mut state.group),
        2 => change_number(random, &mut state.top),
        3 => change_number(random, &mut state.floor),
        4 => change_number(random, &mut state.taken[member]),
        5 => change_number(random, &mut state.counts[member]),
        6 => change_number(random, &mut state.repeats[member]),
        7 => change_number(random, &mut state.kept[place]),
        8 => change_byte(random, &mut state.originators[place]),
        9 => change_byte(random, &mut state.lengths[place]),
        _ => change_byte(random, &mut state.payloads[place][at]),
    }
}

/// A member less, as a reset leaves it: nothing of it is known taken, and the
/// floor is that of those who are left.
fn lose(state: &mut SequencerState, member: usize) {
    state.survivors &= !(1 << member);
    (state.taken[member], state.repeats[member]) = (0, 0);
    let left = (0..MEMBERS).filter(|i| state.survivors >> i & 1 == 1);
    let floor = left.map(|i| state.taken[i]).min().unwrap_or(0);
    for number in state.floor..floor.min(state.floor.saturating_add(HISTORY as u32)) {
        let place = (number as usize + 1) % HISTORY;
        state.kept[place] = 0;
        (state.originators[place], state.lengths[place]) = (0, 0);
        state.payloads[place] = [0; _];
    }
    state.floor = floor;
}

/// Changes one number or byte of a member.
fn change_member(random: &mut Random, state: &mut MemberState) {
    let (queued, held) = (random.below(limits::WAITING), random.below(WINDOW));
    let at = random.below(PAYLOAD);
    match random.below(20) {
        0 => change_byte(random, &mut state.n),
        15 => change_byte(random, &mut state.resilience),
        17 => change_mask(random, &mut state.survivors),
        18 => change_byte(random, &mut state.elected),
        19 => state.survivors &= !(1 << random.below(MEMBERS)),
        16 => change_number(random, &mut state.accepted),
        1 => change_number(random, &mut state.group),
        2 => change_byte(random, &mut state.number),
        3 => change_number(random, &mut state.taken),
        4 => change_number(random, &mut state.submitted),
        5 => change_number(random, &mut state.waiting),
        6 => change_number(random, &mut state.queued[queued]),
        7 => change_byte(random, &mut state.queued_originators[queued]),
        8 => change_byte(random, &mut state.queued_lengths[queued]),
        9 => change_number(random, &mut state.held[held]),
        10 => change_byte(random, &mut state.held_originators[held]),
        11 => change_byte(random, &mut state.held_lengths[held]),
        12 => change_byte(random, &mut state.queued_payloads[queued][at]),
        _ => change_byte(random, &mut state.held_payloads[held][at]),
    }
}

/// A state of any bytes.
fn any_sequencer(random: &mut Random) -> SequencerState {
    let mut state = SequencerState::CLOSED;
    (state.n, state.resilience) = (random.bits() as u8, random.bits() as u8);
    (state.survivors, state.elected) = (random.bits() as u16, random.bits() as u8);
    let numbers = [&mut state.top, &mut state.accepted, &mut state.floor];
    for number in numbers.into_iter().chain([&mut state.group]) {
        *number = random.bits() as u32;
    }
    for mask in &mut state.marks {
        *mask = random.bits() as u16;
    }
    let tables = [&mut state.taken, &mut state.counts, &mut state.repeats];
    for number in tables.into_iter().flatten().chain(&mut state.kept) {
        *number = random.bits() as u32;
    }
    let bytes = state.originators.iter_mut().chain(&mut state.lengths);
    for byte in bytes.chain(state.payloads.iter_mut().flatten()) {
        *byte = random.bits() as u8;
    }
    state
}

/// A state of any bytes.
fn any_member(random: &mut Random) -> MemberState {
    let mut state = MemberState::CLOSED;
    (state.n, state.number) = (random.bits() as u8, random.bits() as u8);
    state.resilience = random.bits() as u8;
    (state.survivors, state.elected) = (random.bits() as u16, random.bits() as u8);
    let numbers = [
        &mut state.group,
        &mut state.taken,
        &mut state.accepted,
        &mut state.submitted,
        &mut state.waiting,
    ];
    let counts = state.queued.iter_mut().chain(&mut state.held);
    for number in numbers.into_iter().chain(counts) {
        *number = random.bits() as u32;
    }
    let heads = [&mut state.queued_originators, &mut state.queued_lengths];
    let heads = heads.into_iter().flatten();
    let places = [&mut state.held_originators, &mut state.held_lengths];
    let payloads = state.queued_payloads.iter_mut().flatten();
    let bytes = heads.chain(places.into_iter().flatten()).chain(payloads);
    for byte in bytes.chain(state.held_payloads.iter_mut().flatten()) {
        *byte = random.bits() as u8;
    }
    state
}

/// Calls of a sequencer in a state that others led to, mostly with a few
/// numbers or bytes changed, or of any bytes: what is told, the state that is
/// left and the output are the reference's, and a refusal leaves the state.
fn forged_sequencer(seed: u64) -> (u8, Option<String>) {
    let random = &mut Random::seeded(seed);
    let n = 1 + random.below(16) as u8;
    let resilience = resilience_of(random, n);
    let group = number(random);
    let packets = requests(random, n, group, resilience);
    let mut start = if random.percent(5) {
        any_sequencer(random)
    } else {
        let end = Sequencer {
            n,
            group,
            resilience,
            heard: &list(&packets),
        };
        ends::sequencer(end, &mut [0; PACKET])
    };
    for _ in 0..random.one(&[0, 1, 1, 1, 2, 3]) {
        change_sequencer(random, &mut start);
    }
    let lent = lent(random);
    let member = random.below(usize::from(n)) as u8;
    let count = near(random, start.counts[usize::from(member)].wrapping_add(1));
    let taken = near(random, start.floor);
    let again = packets.last().cloned().unwrap_or_default();
    let calls = [
        SequencerCall::Receive(laid(1, member, group, [taken, count, 0], &payload(random))),
        SequencerCall::Receive(laid(4, member, group, [near(random, start.top), 0, 0], &[])),
        SequencerCall::Receive(laid(7, member, group, [near(random, start.top), 0, 0], &[])),
        SequencerCall::Receive(again),
        SequencerCall::Receive(bytes(random)),
        SequencerCall::Poll,
        SequencerCall::Copy(near(random, start.top)),
    ];
    let mut refusal = 0;
    for call in calls {
        let (mut here, mut there) = (start.clone(), start.as_reference());
        let (mut out, mut other) = (lent.clone(), lent.clone());
        let told = ask_sequencer(&mut here, &call, &mut out);
        let said = ask_sequencer(&mut there, &call, &mut other);
        let kept = said.code >= 32 || here == start;
        if told != said || out != other || here.as_reference() != there || !kept {
            let difference = format!("{call:02x?} tells {told:?}, in the reference {said:?}");
            return (refusal, Some(difference));
        }
        if matches!(call, SequencerCall::Poll) {
            refusal = if said.code < 32 { said.code as u8 } else { 0 };
        }
    }
    // Opening: whatever stood there, the state is fresh, or closed.
    let (n, mut opened) = (random.below(20) as u8, start);
    let resilience = random.below(20) as u8;
    let told = opened.open(n, group, resilience);
    let fresh = sequencer::Sequencer::resilient(n.into(), group, resilience.into());
    let expected = match fresh {
        Ok(fresh) => told.code == 39 && opened.as_reference() == fresh,
        Err(refused) => told.code == refused.number().into() && opened == SequencerState::CLOSED,
    };
    let difference = (!expected).then(|| format!("opened with {n}, {resilience}: {told:?}"));
    (refusal, difference)
}

/// The same of a member.
fn forged_member(seed: u64) -> (u8, Option<String>) {
    let random = &mut Random::seeded(seed);
    let n = 1 + random.below(16) as u8;
    let number_of = random.below(usize::from(n)) as u8;
    let group = number(random);
    let mut start = if random.percent(5) {
        any_member(random)
    } else {
        let resilience = resilience_of(random, n);
        let mut state = MemberState::opened(n, number_of, group, resilience);
        let heard = if random.percent(50) {
            broadcasts(random, n, group)
        } else {
            own(random, n, number_of, group)
        };
        let out = &mut [0; PACKET];
        for _ in 0..random.below(7) {
            state.submit(&payload(random), out);
        }
        for packet in heard {
            state.receive(&packet, out);
        }
        for _ in 0..random.below(5) {
            state.take(out);
        }
        state
    };
    // Numbers near the largest.
    if random.percent(10) {
        start.taken = LARGEST - random.below(10) as u32;
        start.accepted = start.taken.saturating_add(random.below(10) as u32);
    }
    for _ in 0..random.one(&[0, 1, 1, 1, 2, 3]) {
        change_member(random, &mut start);
    }
    let lent = lent(random);
    let from = random.below(usize::from(n)) as u8;
    let ahead = start.taken.wrapping_add(random.below(11) as u32);
    let fields = [ahead.max(1), near(random, 1).max(1), 0];
    let calls = [
        MemberCall::Submit(payload(random)),
        MemberCall::Receive(laid(2, from, group, fields, &payload(random))),
        MemberCall::Receive(laid(6, from, group, fields, &payload(random))),
        MemberCall::Receive(laid(8, 0, group, [near(random, ahead), 0, 0], &[])),
        MemberCall::Receive(laid(5, 0, group, [near(random, ahead), 0, 0], &[])),
        MemberCall::Receive(bytes(random)),
        MemberCall::Take,
        MemberCall::Repeat,
        MemberCall::Status,
    ];
    let mut refusal = 0;
    for call in calls {
        let (mut here, mut there) = (start.clone(), start.as_reference());
        let (mut out, mut other) = (lent.clone(), lent.clone());
        let told = ask_member(&mut here, &call, &mut out);
        let said = ask_member(&mut there, &call, &mut other);
        let kept = said.code >= 32 || here == start;
        if told != said || out != other || (said.code != 1 && here.as_reference() != there) || !kept
        {
            let difference = format!("{call:02x?} tells {told:?}, in the reference {said:?}");
            return (refusal, Some(difference));
        }
        if matches!(call, MemberCall::Status) {
            refusal = if said.code < 32 { said.code as u8 } else { 0 };
        }
    }
    let (n, number_of, mut opened) = (random.below(20) as u8, random.below(20) as u8, start);
    let resilience = random.below(20) as u8;
    let told = opened.open(n, number_of, group, resilience);
    let fresh = member::Member::resilient(n.into(), number_of.into(), group, resilience.into());
    let expected = match fresh {
        Ok(fresh) => told.code == 39 && opened.as_reference() == fresh,
        Err(refused) => told.code == refused.number().into() && opened == MemberState::CLOSED,
    };
    let difference =
        (!expected).then(|| format!("opened with {n}, {number_of}, {resilience}: {told:?}"));
    (refusal, difference)
}

/// A message that a work list might be fed.
fn message(random: &mut Random, adds: usize) -> (u8, Vec<u8>) {
    let originator = if random.percent(5) {
        random.bits() as u8
    } else {
        random.below(16) as u8
    };
    let kind = random.below(20);
    let payload = match kind {
        0 => {
            let length = random.one(&[0, 1, 2, PAYLOAD + 1, LENGTHS]);
            random.bytes(length)
        }
        1 => vec![FETCH; 2],
        _ if kind < adds => {
            let length = random.one(&[0, 1, 2, JOB - 1, JOB]);
            [vec![ADD], random.bytes(length)].concat()
        }
        _ => vec![FETCH],
    };
    (originator, payload)
}

/// Breaks one sentence of soundness, where the list has what it speaks of.
fn damage(random: &mut Random, list: &mut List) {
    let used = list.jobs().len();
    let at = random.below(JOBS);
    let bit = 1 << random.below(8);
    match random.below(8) {
        0 => list.records.swap(at, JOBS - 1),
        1 => list.records[at].state = random.one(&[0, WAITING, GIVEN, 3, 255]),
        2 => list.records[at].member = random.one(&[1, 15, 16, 255]),
        3 => list.records[at].length = random.one(&[0, 1, JOB as u32, JOB as u32 + 1, LARGEST]),
        4 => list.records[at].bytes[random.below(JOB)] ^= bit,
        5 => list.records[at].bytes[JOB - 1] ^= bit,
        // A second job for the member of another, used or not.
        6 => {
            let Job { state, member, .. } = list.records[random.below(used.max(1))];
            (list.records[at].state, list.records[at].member) = (state, member);
        }
        _ => list.records[at] = list.records[random.below(JOBS)],
    }
}

/// Feeds of a list that others led to, of which one in three is damaged.
fn feeding(seed: u64) -> (u8, Option<String>) {
    let random = &mut Random::seeded(seed);
    let mut start = List::empty();
    let adds = random.one(&[8, 12, 19]);
    for _ in 0..random.one(&[0, 5, 40, 150]) {
        let (originator, payload) = message(random, adds);
        start.feed(originator, &payload);
    }
    if random.below(3) == 0 {
        damage(random, &mut start);
    }
    let adds = random.one(&[5, 12, 19]);
    let many = random.one(&[1, 3, 20]);
    let messages: Vec<_> = (0..many).map(|_| message(random, adds)).collect();
    let list = records(&start.records);
    let differs = |messages: &[(u8, Vec<u8>)]| {
        let feeds = feeds(messages);
        proved::feed_rounds(&list, &feeds, 1) != reference::feed_rounds(&list, &feeds, 1)
    };
    let (originator, payload) = &messages[0];
    let refusal = match start.clone().feed(*originator, payload) {
        Fed::Refused(refusal) => refusal.number(),
        _ => 0,
    };
    if !differs(&messages) {
        return (refusal, None);
    }
    let fewer = shrink(&messages, differs);
    let jobs = start.records;
    (refusal, Some(format!("{jobs:02x?}, fed {fewer:02x?}")))
}

/// Takes of a member that holds jobs added and fetched.
fn terminal(seed: u64) -> Option<String> {
    let random = &mut Random::seeded(seed);
    let n = 1 + random.below(16) as u8;
    let number_of = random.below(usize::from(n)) as u8;
    let group = number(random);
    let lent = lent(random);
    let packets: Vec<_> = (1..9)
        .map(|number| {
            let (_, payload) = message(random, 12);
            let originator = random.below(usize::from(n)) as u8;
            laid(2, originator, group, [number, number, 0], &payload)
        })
        .collect();
    let calls = random.below(10) as u32;
    let differs = |packets: &[Vec<u8>]| {
        let heard = &list(packets);
        let end = Member {
            n,
            number: number_of,
            group,
            resilience: 0,
            heard,
            takes: 0,
        };
        let (mut here, mut there) = (lent.clone(), lent.clone());
        let sum = proved::terminal_take(end, calls, &mut here);
        sum != reference::terminal_take(end, calls, &mut there) || here != there
    };
    if !differs(&packets) {
        return None;
    }
    let fewer = shrink(&packets, differs);
    Some(format!(
        "n {n}, member {number_of}, group {group}, {calls} takes, packets {fewer:02x?}"
    ))
}

/// Room for what a schedule prints.
fn room(schedule: &[u8]) -> usize {
    let lines = schedule.iter().filter(|&&byte| byte == b'\n').count() + 2;
    LINE * lines
}

/// What both sides print.
fn printed(schedule: &[u8]) -> [Vec<u8>; 2] {
    [proved::play, reference::play].map(|play| {
        let mut out = vec![0; room(schedule)];
        let length = play(schedule, &mut out);
        out.truncate(length);
        out
    })
}

/// One in four schedules is damaged, one in a thousand has a line of a million characters.
fn playing(seed: u64) -> Option<String> {
    let random = &mut Random::seeded(seed);
    let events = random.one(&[5, 20, 60, 200, 600]);
    let mut text = if random.percent(25) {
        schedules::random::damaged(random.bits(), events)
    } else {
        schedules::random::schedule(random.bits(), events)
    };
    if random.below(1000) == 0 {
        text.extend(b"T ");
        text.extend(vec![random.one(b"0 a\0"); 1_000_000]);
        text.extend(b"\nP\n");
    }
    differing(&text, printed)
}

/// What an input prints here and in the reference, if that differs, with as
/// few of its lines as will do.
fn differing(text: &[u8], printed: impl Fn(&[u8]) -> [Vec<u8>; 2]) -> Option<String> {
    let lines: Vec<&[u8]> = text.split_inclusive(|&byte| byte == b'\n').collect();
    let differs = |lines: &[&[u8]]| {
        let [here, there] = printed(&lines.concat());
        here != there
    };
    if !differs(&lines) {
        return None;
    }
    let text = shrink(&lines, differs).concat();
    let [here, there] = printed(&text).map(|text| String::from_utf8_lossy(&text).into_owned());
    let text = String::from_utf8_lossy(&text);
    Some(format!(
        "{text:?}\nprints {here:?}\nand in the reference {there:?}"
    ))
}

/// A load of any seed for every n, and for some that are refused, byte for byte.
fn loading(seed: u64) -> (u8, Option<String>) {
    let random = &mut Random::seeded(seed);
    let start = random.bits() as u32;
    let group = number(random);
    let events = random.below(100) as u32;
    let others = [0, 17, 255, 256, 257, LARGEST];
    let difference = (1..=16).chain(others).find(|&n| {
        proved::load(start, n, group, events) != reference::load(start, n, group, events)
    });
    let difference = difference.map(|n| format!("load {start} {n} {group} {events}"));
    (0, difference)
}

/// A taken message with its payload.
#[derive(Clone, Debug)]
struct Taken {
    number: u32,
    originator: u8,
    count: u32,
    payload: Vec<u8>,
}

impl Taken {
    fn message(&self) -> Message<'_> {
        Message {
            number: self.number,
            originator: self.originator,
            count: self.count,
            payload: &self.payload,
        }
    }
}

/// Messages behind a tail, and shutdowns. Where `refusals`, some may not be kept.
fn taken(random: &mut Random, tail: Tail, refusals: bool) -> Vec<Taken> {
    let mut writer = journal::Writer::after(tail);
    let (mut hand, mut out) = ([0; BLOCK], [0; BLOCK]);
    let many = random.below(150);
    // Some journals have the shortest records alone, so that 71 stand in a block.
    let short = random.percent(20);
    let mut all = Vec::new();
    for _ in 0..many {
        let payload = if short { Vec::new() } else { payload(random) };
        let mut one = Taken {
            number: writer.tail.last.saturating_add(1),
            originator: random.below(MEMBERS) as u8,
            count: number(random).max(1),
            payload,
        };
        match random.below(40) {
            0 => {
                let Message {
                    number,
                    originator,
                    count,
                    ..
                } = FINISH;
                (one.number, one.originator, one.count) = (number, originator, count);
            }
            1 if refusals => one.originator = random.one(&[16, 17, 100, 254]),
            2 if refusals => one.count = 0,
            3 if refusals => one.payload = random.bytes(PAYLOAD + 1),
            4 if refusals => one.payload = random.bytes(1000),
            5..8 if refusals => one.number = near(random, one.number),
            8 if refusals => one.number = writer.tail.last,
            _ => (),
        }
        // What it answers is compared elsewhere; here its tail alone matters.
        let _ = writer.write(&one.message(), &mut hand, &mut out);
        all.push(one);
    }
    all
}

/// The tail of a journal: mostly of an empty one, and some near the largest number.
fn tail(random: &mut Random) -> Tail {
    match random.below(4) {
        0 => Tail {
            last: LARGEST - random.below(80) as u32,
            free: random.percent(50),
        },
        1 => Tail {
            last: number(random),
            free: false,
        },
        _ => Tail::FRESH,
    }
}

/// A writer behind a tail: some have any records in hand, so that few are sound.
fn writer(random: &mut Random, tail: Tail) -> Writer {
    let mut writer = Writer::after(tail.last, tail.free);
    if random.percent(30) {
        let records = random.one(&[0, 1, 2, 71, 72, 498, usize::MAX]);
        writer.records = records;
        writer.first = match random.below(4) {
            0 => number(random),
            _ => (u64::from(tail.last) + 1).saturating_sub(records as u64) as u32,
        };
        writer.used = match random.below(4) {
            0 => random.one(&[0, 9, 10, 11, SUM - 1, SUM, SUM + 1, BLOCK, usize::MAX]),
            1 => RECORDS.saturating_add(records.saturating_mul(7)),
            _ => RECORDS + random.below(SUM - RECORDS + 1),
        };
        writer.free = random.percent(10);
    }
    writer
}

/// The sum of a writer's answers, and the output with the blocks at its front.
fn written(all: &[Taken], writer: Writer, room: usize) -> [(u64, Vec<u8>); 2] {
    let list = messages(all.iter().map(Taken::message));
    [proved::journal_write, reference::journal_write].map(|write| {
        let mut out = vec![0xaa; room];
        let sum = write(writer, &list, 1, &mut out);
        (sum, out)
    })
}

/// A writer in any state, any messages: answers, states, and the blocks byte for byte.
fn journal_writing(seed: u64) -> (u8, Option<String>) {
    let random = &mut Random::seeded(seed);
    let tail = tail(random);
    let writer = writer(random, tail);
    let all = taken(random, tail, true);
    let room = if random.percent(10) {
        random.below(3 * BLOCK)
    } else {
        BLOCK * (all.len() + 1)
    };
    let differs = |all: &[Taken]| {
        let [here, there] = written(all, writer, room);
        here != there
    };
    let start = journal::Writer {
        tail: Tail {
            last: writer.last,
            free: writer.free,
        },
        first: writer.first,
        records: writer.records,
        used: writer.used,
    };
    let refusal = if start.is_sound() { 0 } else { 1 };
    if !differs(&all) {
        return (refusal, None);
    }
    let fewer = shrink(&all, differs);
    let [(here, _), (there, _)] = written(&fewer, writer, room);
    let difference = format!("{writer:?}, {fewer:02x?}: {here}, in the reference {there}");
    (refusal, Some(difference))
}

/// The sum of a block, made right.
fn summed(block: &mut [u8]) {
    if let Ok(block) = <&mut [u8; BLOCK]>::try_from(block) {
        let sum = journal::sum(block);
        block[SUM..].copy_from_slice(&sum.to_be_bytes());
    }
}

/// A journal that was damaged: a block torn or changed, its sum made right or not, blocks lost, changed places or
/// bytes behind the last.
fn damage_journal(random: &mut Random, journal: &mut Vec<u8>) {
    let blocks = journal.len() / BLOCK;
    if blocks == 0 {
        let more = random.one(&[0, 1, BLOCK - 1, BLOCK, BLOCK + 1, 2 * BLOCK]);
        journal.extend(random.bytes(more));
        return;
    }
    let at = BLOCK * random.below(blocks);
    let block = at..at + BLOCK;
    match random.below(10) {
        // Torn: the first bytes were written, behind them stands something else.
        0 => {
            let kept = at + random.below(BLOCK);
            journal.truncate(at + BLOCK);
            let other = random.bytes(at + BLOCK - kept);
            journal[kept..].copy_from_slice(&other);
        }
        1 => journal[at + random.below(BLOCK)..].fill(0),
        2 => journal.truncate(random.below(journal.len())),
        3 => {
            let more = random.one(&[1, BLOCK - 1, BLOCK, BLOCK + 1]);
            journal.extend(random.bytes(more));
        }
        4 => {
            journal.drain(block);
        }
        5 => journal.rotate_left(BLOCK),
        // Changed with its sum made right: what is asked of its content decides.
        6 => {
            journal[at + random.below(SUM)] ^= 1 << random.below(8);
            summed(&mut journal[block]);
        }
        7 => {
            let place = random.one(&[4, 7, 8, 9, 10, 13, 14, 15, 16, 17, 18, SUM - 1]);
            journal[at + place] = random.one(&[0, 1, 2, 15, 16, 240, 241, 255]);
            summed(&mut journal[block]);
        }
        // The other mark.
        8 => {
            journal[at + 3] ^= MARK[3] ^ COMPACT[3];
            summed(&mut journal[block]);
        }
        _ => journal[at + random.below(BLOCK)] ^= 1 << random.below(8),
    }
}

/// Whether the two sides read a journal differently.
fn read_differs(journal: &[u8]) -> bool {
    proved::journal_read(journal, 1) != reference::journal_read(journal, 1)
}

/// A journal that the reference's writer wrote.
fn written_journal(random: &mut Random) -> Vec<u8> {
    let tail = tail(random);
    let mut all = taken(random, tail, false);
    all.push(Taken {
        number: FINISH.number,
        originator: FINISH.originator,
        count: FINISH.count,
        payload: Vec::new(),
    });
    let list = messages(all.iter().map(Taken::message));
    let mut journal = vec![0; BLOCK * (all.len() + 1)];
    let writer = Writer::after(tail.last, tail.free);
    reference::journal_write(writer, &list, 1, &mut journal);
    // Behind the blocks that were written stand zeros, which are no mark.
    let blocks = journal.chunks(BLOCK).take_while(|block| block[0] != 0);
    journal.truncate(BLOCK * blocks.count());
    journal
}

/// A journal that the reference wrote, or one with compacted blocks: read whole, each byte of its last block changed once, with
/// and without the sum made right; damaged; and the records at any index of it.
fn journal_reading(seed: u64) -> (u8, Option<String>) {
    let random = &mut Random::seeded(seed);
    let journal = if random.percent(30) {
        units_journal(random)
    } else {
        written_journal(random)
    };
    let said = |what: &str, journal: &[u8]| {
        let fewer = shrink(journal, read_differs);
        (
            0,
            Some(format!("{what} {} bytes: {fewer:02x?}", journal.len())),
        )
    };
    if read_differs(&journal) {
        return said("whole", &journal);
    }
    if let Some(last) = journal.len().checked_sub(BLOCK) {
        for at in 0..BLOCK {
            let mut changed = journal[last..].to_vec();
            changed[at] ^= 1 << random.below(8);
            if read_differs(&changed) {
                return said("changed", &changed);
            }
            summed(&mut changed);
            if read_differs(&changed) {
                return said("changed and summed", &changed);
            }
        }
    }
    for _ in 0..10 {
        let mut damaged = journal.clone();
        for _ in 0..1 + random.below(2) {
            damage_journal(random, &mut damaged);
        }
        if read_differs(&damaged) {
            return said("damaged", &damaged);
        }
        let size = random
            .one(&[BLOCK, BLOCK, BLOCK, BLOCK - 1, 0])
            .min(damaged.len());
        let any = random.below(BLOCK);
        let at = random.one(&[RECORDS, SUM - 7, SUM - 6, SUM, usize::MAX, any, any]);
        let (block, number) = (&damaged[..size], number(random));
        let here = proved::journal_record(block, at, number);
        if here != reference::journal_record(block, at, number) {
            let difference = format!("record {number} at {at} of {block:02x?}");
            return (0, Some(difference));
        }
    }
    let refusal = journal::read(&journal).map_or_else(|refusal| refusal.number(), |_| 0);
    (refusal, None)
}

/// A payload that mostly sets one of so many units, whose numbers lie apart.
fn setting(random: &mut Random, units: usize) -> Vec<u8> {
    let mut text = payload(random);
    match random.below(10) {
        0 => text,
        1 => vec![SET; random.below(3)],
        _ => {
            text.truncate(PAYLOAD - 3);
            set((random.below(units) * 7) as u16, &text)
        }
    }
}

/// The payload that sets a unit.
fn set(unit: u16, text: &[u8]) -> Vec<u8> {
    [&[SET][..], &unit.to_be_bytes(), text].concat()
}

/// Messages with these payloads, whose numbers rise from one on, by 1 or by more.
fn rising(random: &mut Random, last: u32, most: usize, payloads: Vec<Vec<u8>>) -> Vec<Taken> {
    let mut last = last;
    let mut all = Vec::new();
    for payload in payloads {
        let step = 1 + random.below(most) as u32;
        let Some(next) = last.checked_add(step) else {
            break;
        };
        last = next;
        all.push(Taken {
            number: last,
            originator: random.below(MEMBERS) as u8,
            count: number(random).max(1),
            payload,
        });
    }
    all
}

/// Blocks of messages, laid by hand: as many to a block as fit, and now and then fewer.
fn blocks(random: &mut Random, mark: [u8; 4], all: &[Taken]) -> Vec<u8> {
    let mut journal = Vec::new();
    let mut rest = all;
    while !rest.is_empty() {
        let (mut body, mut many) = (Vec::new(), 0);
        for one in rest {
            let before = if mark == COMPACT { NUMBER } else { 0 };
            let end = RECORDS + body.len() + before + one.message().size();
            if end > SUM || (many > 0 && random.below(50) == 0) {
                break;
            }
            body.extend(&one.number.to_be_bytes()[..before]);
            body.push(one.originator);
            body.extend(one.count.to_be_bytes());
            body.extend((one.payload.len() as u16).to_be_bytes());
            body.extend(&one.payload);
            many += 1;
        }
        let mut block = mark.to_vec();
        block.extend(rest[0].number.to_be_bytes());
        block.extend((many as u16).to_be_bytes());
        block.extend(body);
        block.resize(BLOCK, 0);
        summed(&mut block);
        journal.extend(block);
        rest = &rest[many..];
    }
    journal
}

/// A journal of compacted blocks, of the writer's, or of both, whose messages set units; some have about as many as a plan may
/// have, each set once at least.
fn units_journal(random: &mut Random) -> Vec<u8> {
    let mut payloads: Vec<Vec<u8>> = Vec::new();
    if random.percent(15) {
        let units = UNITS - 2 + random.below(5);
        payloads.extend((0..units).map(|unit| set((unit * 7) as u16, &[])));
        payloads.reverse();
        for unit in 0..units {
            payloads.swap(unit, random.below(units));
        }
    }
    let units = random.one(&[1, 5, 60, 510, 9000]);
    let most = random.one(&[3, 30, 300]);
    let many = random.below(most);
    payloads.extend((0..many).map(|_| setting(random, units)));
    let behind = payloads.split_off(random.below(payloads.len() + 1));
    let start = tail(random).last;
    let old = rising(random, start, 3, payloads);
    // The first number of the writer's is any above the last.
    let last = old.last().map_or(start, |one| one.number);
    let jump = last.saturating_add(random.below(3) as u32);
    let new = rising(random, jump, 1, behind);
    let journal = blocks(random, COMPACT, &old);
    [journal, blocks(random, MARK, &new)].concat()
}

/// Rounds of a call that lays bytes of a journal in an output.
type Lays = fn(&[u8], u32, &mut [u8]) -> u64;

/// The answer of a call, and the output with what was laid at its front.
fn result(call: Lays, journal: &[u8], room: usize) -> (u64, Vec<u8>) {
    let mut out = vec![0xaa; room];
    let answer = call(journal, 1, &mut out);
    (answer, out)
}

/// A journal, damaged or not: its plan and its rewriting in outputs just long enough, a byte shorter, and longer.
fn planning(seed: u64) -> (u8, Option<String>) {
    let random = &mut Random::seeded(seed);
    let mut journal = units_journal(random);
    if random.percent(30) {
        damage_journal(random, &mut journal);
    }
    let parts: Vec<&[u8]> = journal.chunks(BLOCK).collect();
    let calls: [(&str, Lays, Lays); 2] = [
        ("plan", proved::plan, reference::plan),
        ("rewrite", proved::rewrite, reference::rewrite),
    ];
    let mut refusal = 0;
    for (name, proved, reference) in calls {
        let (answer, _) = result(reference, &journal, UNITS * BLOCK);
        // The answer of so many bytes is 204 and that.
        let (size, refused) = (answer.saturating_sub(204) as usize, answer < 204);
        if refused {
            refusal = answer as u8;
        }
        for room in [size, size.saturating_sub(1), size + random.below(700)] {
            let differs = |parts: &[&[u8]]| {
                let journal = parts.concat();
                result(proved, &journal, room) != result(reference, &journal, room)
            };
            if differs(&parts) {
                let fewer = shrink(&parts, differs);
                let [here, there] =
                    [proved, reference].map(|call| result(call, &fewer.concat(), room).0);
                let difference = format!(
                    "{name} to {room} bytes of {fewer:02x?}: {here}, in the reference {there}"
                );
                return (refusal, Some(difference));
            }
        }
    }
    (refusal, None)
}
