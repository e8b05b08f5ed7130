//! The plan and the rewritten journal: units in order, the latest wins, both
//! journals come to the same plan; compacted blocks byte by byte, what may
//! follow which mark, and what is refused.

mod common;

use common::{BLANK, MAX, Random};
use model::journal::{BLOCK, Message, Tail, Writer, messages, read};
use model::limits::PLAN;
use model::plan::{plan, rewrite, setting};
use std::collections::HashMap;

/// A message that owns its payload.
#[derive(Clone, Debug, PartialEq, Eq)]
struct Taken {
    number: u32,
    originator: u8,
    count: u32,
    payload: Vec<u8>,
}

fn taken(number: u32, payload: &[u8]) -> Taken {
    Taken {
        number,
        originator: (number % 16) as u8,
        count: number.wrapping_mul(77).max(1),
        payload: payload.to_vec(),
    }
}

/// Messages with these payloads, the first with that number.
fn numbered(first: u32, payloads: &[Vec<u8>]) -> Vec<Taken> {
    (first..=MAX)
        .zip(payloads)
        .map(|(number, payload)| taken(number, payload))
        .collect()
}

/// The payload that sets a unit.
fn sets(unit: u16, description: &[u8]) -> Vec<u8> {
    [&[3][..], &unit.to_be_bytes(), description].concat()
}

/// A block by hand, with numbers before its records or without.
fn block(mark: &[u8; 4], first: u32, all: &[Taken]) -> Vec<u8> {
    let mut bytes = mark.to_vec();
    bytes.extend(first.to_be_bytes());
    bytes.extend((all.len() as u16).to_be_bytes());
    for m in all {
        if mark == b"KJB2" {
            bytes.extend(m.number.to_be_bytes());
        }
        bytes.push(m.originator);
        bytes.extend(m.count.to_be_bytes());
        bytes.extend((m.payload.len() as u16).to_be_bytes());
        bytes.extend(&m.payload);
    }
    bytes.resize(BLOCK, 0);
    sealed(bytes)
}

/// The last four bytes made the right sum.
fn sealed(mut block: Vec<u8>) -> Vec<u8> {
    let mut sum = 0;
    for position in 0..508 {
        sum += (position as u32 + 1) * block[position] as u32;
    }
    block.splice(508.., sum.to_be_bytes());
    block
}

/// Blocks of these messages by hand: as many to a block as fit.
fn packed(mark: &[u8; 4], all: &[Taken]) -> Vec<u8> {
    let before = if mark == b"KJB2" { 11 } else { 7 };
    let mut blocks: Vec<Vec<Taken>> = Vec::new();
    let mut room = 0;
    for m in all {
        let size = before + m.payload.len();
        if size > room {
            blocks.push(Vec::new());
            room = 498;
        }
        room -= size;
        blocks.last_mut().unwrap().push(m.clone());
    }
    let laid = blocks.iter().map(|all| block(mark, all[0].number, all));
    laid.collect::<Vec<_>>().concat()
}

fn log(all: &[Taken]) -> Vec<u8> {
    packed(b"KJB1", all)
}

fn compact(all: &[Taken]) -> Vec<u8> {
    packed(b"KJB2", all)
}

/// The messages of a journal's right blocks.
fn listed(journal: &[u8]) -> Vec<Taken> {
    let found = read(journal).unwrap();
    let all: Vec<Taken> = messages(journal, found.blocks)
        .map(|m| Taken {
            number: m.number,
            originator: m.originator,
            count: m.count,
            payload: m.payload.to_vec(),
        })
        .collect();
    assert_eq!(all.len(), found.messages);
    all
}

type Call = fn(&[u8], &mut [u8]) -> Result<usize, model::Refusal>;

/// What a call lays. An output just long enough is filled; behind it the bytes
/// keep their values; in one a byte shorter nothing changes.
fn laid(call: Call, journal: &[u8]) -> Vec<u8> {
    let mut out = vec![BLANK; 300_000];
    let size = call(journal, &mut out).unwrap();
    assert!(out[size..].iter().all(|&byte| byte == BLANK));
    out.truncate(size);
    let mut same = vec![!BLANK; size];
    assert_eq!(call(journal, &mut same), Ok(size));
    assert_eq!(same, out);
    if size > 0 {
        assert_eq!(refused(call, journal, size - 1), 23);
        assert_eq!(refused(call, journal, 0), 23);
    }
    out
}

/// The number of the question that refuses a call with so much room.
fn refused(call: Call, journal: &[u8], room: usize) -> u8 {
    let mut out = vec![BLANK; room];
    let refusal = call(journal, &mut out).unwrap_err();
    assert!(out.iter().all(|&byte| byte == BLANK));
    refusal.number()
}

/// The last message of each unit, in order of sequence number.
fn last_ones(all: &[Taken]) -> Vec<Taken> {
    let mut last = HashMap::new();
    for (at, m) in all.iter().enumerate() {
        if m.payload.len() >= 3 && m.payload[0] == 3 {
            last.insert((m.payload[1], m.payload[2]), at);
        }
    }
    let mut places: Vec<usize> = last.into_values().collect();
    places.sort();
    places.into_iter().map(|at| all[at].clone()).collect()
}

/// The plan of these messages by hand.
fn rows(all: &[Taken]) -> Vec<u8> {
    let mut last = last_ones(all);
    last.sort_by_key(|m| (m.payload[1], m.payload[2]));
    let mut rows = Vec::new();
    for m in last {
        rows.extend(&m.payload[1..3]);
        rows.extend((m.payload.len() as u16 - 3).to_be_bytes());
        rows.extend(&m.payload[3..]);
    }
    rows
}

/// Both calls on a journal whose right blocks have these messages.
fn check(journal: &[u8], all: &[Taken]) {
    assert_eq!(listed(journal), all);
    let expected = rows(all);
    assert_eq!(laid(plan, journal), expected);
    let last = last_ones(all);
    let new = laid(rewrite, journal);
    assert_eq!(new, compact(&last));
    assert_eq!(listed(&new), last);
    assert_eq!(laid(plan, &new), expected);
    assert_eq!(laid(rewrite, &new), new);
}

fn any_payload(random: &mut Random, units: usize) -> Vec<u8> {
    let length = match random.below(4) {
        0 => random.below(5),
        1 => random.below(40),
        2 => 240 - random.below(3),
        _ => random.below(241),
    };
    let mut payload: Vec<u8> = (0..length).map(|_| random.next() as u8).collect();
    if random.below(8) > 0 && length >= 3 {
        // The numbers of units lie apart.
        let unit = (random.below(units) * 127) as u16;
        payload[..3].copy_from_slice(&sets(unit, &[]));
    }
    payload
}

fn any_payloads(random: &mut Random, units: usize, many: usize) -> Vec<Vec<u8>> {
    (0..many).map(|_| any_payload(random, units)).collect()
}

#[test]
fn what_sets_a_unit() {
    assert_eq!(setting(&[3, 1, 2]), Some((258, &[][..])));
    assert_eq!(setting(&[3, 255, 255, 9]), Some((65_535, &[9][..])));
    for other in [&[][..], &[3], &[3, 0], &[2, 0, 0], &[4, 0, 0, 7]] {
        assert_eq!(setting(other), None);
    }
}

#[test]
fn five_messages() {
    let payloads = [
        sets(7, b"A"),
        sets(256, b"B"),
        vec![3, 0],
        sets(7, b""),
        vec![4, 0, 7, 67],
    ];
    let all = numbered(1, &payloads);
    let journal = log(&all);
    assert_eq!(laid(plan, &journal), [0, 7, 0, 0, 1, 0, 0, 1, 66]);
    let new = laid(rewrite, &journal);
    let front = [
        &b"KJB2\0\0\0\x02\0\x02"[..],
        &[0, 0, 0, 2, 2, 0, 0, 0, 154, 0, 4, 3, 1, 0, 66],
        &[0, 0, 0, 4, 4, 0, 0, 1, 52, 0, 3, 3, 0, 7, 0],
    ];
    let front = front.concat();
    assert_eq!(new[..front.len()], front);
    check(&journal, &all);
}

/// Few units and many, at the front of the numbers and at their end; then the
/// same messages behind both journals.
#[test]
fn random_journals() {
    for seed in 0..300 {
        let random = &mut Random::seeded(seed);
        let units = [1, 5, 60, 500][random.below(4)];
        let many = random.below(400);
        let first = match random.below(3) {
            0 => 1,
            1 => 1 + random.next() as u32 / 2,
            _ => MAX - 420,
        };
        let payloads = any_payloads(random, units, many);
        let mut all = numbered(first, &payloads);
        let old = log(&all);
        check(&old, &all);
        let new = laid(rewrite, &old);
        let further = 1 + random.below(20);
        let more = any_payloads(random, units, further);
        let behind = numbered(first + many as u32, &more);
        let mut after = last_ones(&all);
        all.extend(behind.clone());
        after.extend(behind.clone());
        let (old, new) = ([old, log(&behind)].concat(), [new, log(&behind)].concat());
        check(&old, &all);
        check(&new, &after);
        assert_eq!(laid(plan, &old), laid(plan, &new));
        assert_eq!(laid(rewrite, &old), laid(rewrite, &new));
    }
}

#[test]
fn units_and_room() {
    let units = |many: u16| {
        let payloads: Vec<_> = (0..many).rev().map(|unit| sets(unit, b"x")).collect();
        log(&numbered(1, &payloads))
    };
    assert_eq!(laid(plan, &units(512)).len(), 512 * 5);
    // 33 records of 15 bytes to a block.
    assert_eq!(laid(rewrite, &units(512)).len(), 16 * BLOCK);
    for call in [plan as Call, rewrite] {
        // 21, then 22, then 23.
        let many = units(513);
        assert_eq!(refused(call, &many, 300_000), 22);
        assert_eq!(refused(call, &many, 0), 22);
        assert_eq!(refused(call, &many[1..], 0), 21);
        assert_eq!(refused(call, &[0], 0), 21);
        assert_eq!(laid(call, &[]), []);
        // A block that is none of a journal: nothing precedes it.
        assert_eq!(laid(call, &[0; BLOCK]), []);
        // Behind a wrong block units do not count.
        let torn = [units(512), vec![1; BLOCK], many].concat();
        assert_eq!(laid(call, &torn), laid(call, &units(512)));
    }
}

/// The longest plan and the longest rewritten journal: 512 units with the
/// longest payloads, two of which do not fit a compacted block.
#[test]
fn the_longest() {
    let payloads: Vec<_> = (0..512).map(|unit| sets(unit, &[7; 237])).collect();
    let all = numbered(MAX - 511, &payloads);
    let journal = log(&all);
    assert_eq!(journal.len(), 256 * BLOCK);
    assert_eq!(laid(plan, &journal).len(), PLAN);
    assert_eq!(laid(rewrite, &journal).len(), 512 * BLOCK);
    check(&journal, &all);
}

/// A last record that just fits a compacted block, and one a byte too long.
#[test]
fn just_fits() {
    // 498 bytes: 4 + 7 + 240, and 4 + 7 + 236.
    for (size, blocks) in [(236, 1), (237, 2)] {
        let payloads = [sets(1, &[1; 237]), sets(2, &vec![2; size - 3])];
        let all = numbered(9, &payloads);
        let journal = log(&all);
        assert_eq!(journal.len(), BLOCK);
        assert_eq!(laid(rewrite, &journal).len(), blocks * BLOCK);
        check(&journal, &all);
    }
}

/// `KJB1` behind `KJB2` with any higher number, never the other way round;
/// behind `KJB1` the next number alone.
#[test]
fn what_may_follow() {
    let one = |number| taken(number, &sets(3, b"c"));
    let (new, old) = (compact(&[one(5), one(8)]), log(&[one(9)]));
    let many = |parts: &[&[u8]]| read(&parts.concat()).unwrap().messages;
    assert_eq!(many(&[&new, &old]), 3);
    assert_eq!(many(&[&new, &log(&[one(4_000_000)])]), 3);
    assert_eq!(many(&[&new, &log(&[one(8)])]), 2);
    assert_eq!(many(&[&new, &compact(&[one(9)])]), 3);
    assert_eq!(
        many(&[&new, &compact(&[one(4_000_000)]), &log(&[one(MAX)])]),
        4
    );
    assert_eq!(many(&[&new, &compact(&[one(8)])]), 2);
    assert_eq!(many(&[&new, &new]), 2);
    assert_eq!(many(&[&old, &compact(&[one(10)])]), 1);
    assert_eq!(many(&[&old, &log(&[one(10)])]), 2);
    assert_eq!(many(&[&old, &log(&[one(11)])]), 1);
    assert_eq!(
        many(&[&new, &old, &compact(&[one(10)]), &log(&[one(10)])]),
        3
    );
    let tail = read(&new).unwrap().tail;
    assert_eq!((tail.last, tail.free), (8, true));
    let tail = read(&[new, old].concat()).unwrap().tail;
    assert_eq!((tail.last, tail.free), (9, false));
}

/// What is wrong with a compacted block, under a right sum.
#[test]
fn wrong_compacted_blocks() {
    let one = |number| taken(number, &sets(3, b"c"));
    let next = |last, bytes: &[u8]| Tail { last, free: true }.next(bytes).is_some();
    let right = block(b"KJB2", 5, &[one(5), one(8)]);
    assert!(next(4, &right));
    assert!(!next(5, &right));
    let free = false;
    assert_eq!(Tail { last: 4, free }.next(&right), None);
    let with = |at: usize, byte: u8| {
        let mut bytes = right.clone();
        bytes[at] = byte;
        sealed(bytes)
    };
    // The second record's number stands 15 bytes behind the first's.
    for (what, bytes) in [
        ("its number below its first record's", with(7, 4)),
        ("its number above its first record's", with(7, 6)),
        ("an equal number", with(28, 5)),
        ("a falling number", with(28, 4)),
        ("originator 16", with(14, 16)),
        ("a message's count 0", {
            block(b"KJB2", 5, &[Taken { count: 0, ..one(5) }])
        }),
        ("count 0", block(b"KJB2", 5, &[])),
        ("count one less", with(9, 1)),
        ("count one more", with(9, 3)),
        ("filling", with(507, 1)),
        ("length 241", block(b"KJB2", 5, &[taken(5, &[0; 241])])),
        ("number 0", block(b"KJB2", 0, &[one(0)])),
        ("mark", with(3, b'3')),
    ] {
        assert!(!next(0, &bytes), "{what}");
    }
    assert!(next(0, &with(28, 6)) && next(0, &with(28, 255)));
    // A number that would reach into the sum: 45 empty records have 495 bytes.
    let mut all: Vec<_> = (1..=45).map(|number| taken(number, &[])).collect();
    assert!(next(0, &block(b"KJB2", 1, &all)));
    let mut over = block(b"KJB2", 1, &all);
    over[9] = 46;
    assert!(!next(0, &sealed(over)));
    all.truncate(44);
    all.push(taken(45, &[0; 3]));
    let mut over = block(b"KJB2", 1, &all);
    over[9] = 46;
    assert!(!next(0, &sealed(over)));
}

/// No single bit of a compacted block may be wrong.
#[test]
fn every_bit_flipped() {
    let payloads: Vec<_> = (0..9).map(|unit| sets(unit, b"board")).collect();
    let new = laid(rewrite, &log(&numbered(3, &payloads)));
    assert_eq!(new.len(), BLOCK);
    for bit in 0..8 * BLOCK {
        let mut torn = new.clone();
        torn[bit / 8] ^= 1 << (bit % 8);
        assert_eq!(listed(&torn), [], "bit {bit}");
    }
}

/// Behind a rewritten journal a writer takes any number above the last, and
/// then the next alone.
#[test]
fn going_on() {
    let new = laid(rewrite, &log(&numbered(1, &[sets(1, b"a"), sets(2, b"b")])));
    for (number, goes) in [(0, false), (2, false), (3, true), (4, true), (MAX, true)] {
        let mut writer = Writer::after(read(&new).unwrap().tail);
        let (mut hand, mut out) = ([0; BLOCK], [0; BLOCK]);
        let message = |number| Message {
            number,
            originator: 0,
            count: 1,
            payload: &[3, 0, 1, 99],
        };
        let kept = writer.write(&message(number), &mut hand, &mut out);
        assert_eq!(kept.is_ok(), goes, "{number}");
        if !goes {
            continue;
        }
        let skipped = writer.write(&message(number.saturating_add(2)), &mut hand, &mut out);
        assert!(skipped.is_err());
        assert_eq!(writer.finish(&hand, &mut out), Ok(BLOCK));
        let journal = [&new[..], &out].concat();
        let numbers: Vec<u32> = listed(&journal).iter().map(|m| m.number).collect();
        assert_eq!(numbers, [1, 2, number]);
        assert_eq!(laid(plan, &journal), [0, 1, 0, 1, 99, 0, 2, 0, 1, 98]);
    }
}

/// A journal of both marks that was damaged: the plan is that of the blocks
/// before the first wrong one.
#[test]
fn damaged() {
    for seed in 0..200 {
        let random = &mut Random::seeded(seed);
        let payloads = any_payloads(random, 40, 60);
        let mut all = last_ones(&numbered(1, &payloads));
        let mut journal = compact(&all);
        let behind = numbered(100, &any_payloads(random, 40, 20));
        journal.extend(log(&behind));
        all.extend(behind);
        check(&journal, &all);
        let at = random.below(journal.len());
        journal[at] ^= 1 << random.below(8);
        let before = listed(&journal[..at / BLOCK * BLOCK]);
        check(&journal, &before);
        assert_eq!(before, all[..before.len()]);
    }
}
