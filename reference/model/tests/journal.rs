//! The journal: its blocks byte by byte, what is wrong with one, wherever the
//! current fails, and going on from there.

mod common;

use common::{BLANK, MAX, Random};
use model::Refusal;
use model::journal::{self, BLOCK, Found, Message, Tail, Writer, messages, read};

/// A message that owns its payload.
#[derive(Clone, Debug, PartialEq, Eq)]
struct Taken {
    number: u32,
    originator: u8,
    count: u32,
    payload: Vec<u8>,
}

impl Taken {
    fn message(&self) -> Message<'_> {
        Message {
            number: self.number,
            originator: self.originator,
            count: self.count,
            payload: &self.payload,
        }
    }
}

fn taken(number: u32, payload: &[u8]) -> Taken {
    Taken {
        number,
        originator: 1,
        count: 1,
        payload: payload.to_vec(),
    }
}

/// A record by hand.
fn record(originator: u8, count: u32, payload: &[u8]) -> Vec<u8> {
    let mut bytes = vec![originator];
    bytes.extend(count.to_be_bytes());
    bytes.extend((payload.len() as u16).to_be_bytes());
    bytes.extend(payload);
    bytes
}

/// The last four bytes made the right sum.
fn sealed(mut block: Vec<u8>) -> Vec<u8> {
    let mut sum = 0;
    for position in 0..508 {
        sum += (position as u32 + 1) * block[position] as u32;
    }
    block.splice(508.., sum.to_be_bytes());
    block
}

/// A block by hand, so that wrong ones can be made.
fn block(first: u32, records: u16, body: &[u8]) -> Vec<u8> {
    let mut bytes = b"KJB1".to_vec();
    bytes.extend(first.to_be_bytes());
    bytes.extend(records.to_be_bytes());
    bytes.extend(body);
    bytes.resize(512, 0);
    sealed(bytes)
}

/// A block of these messages by hand.
fn block_of(all: &[Taken]) -> Vec<u8> {
    let body: Vec<u8> = all
        .iter()
        .flat_map(|m| record(m.originator, m.count, &m.payload))
        .collect();
    block(all[0].number, all.len() as u16, &body)
}

/// The journal of these messages by hand: as many to a block as fit.
fn packed(all: &[Taken]) -> Vec<Vec<u8>> {
    let mut blocks: Vec<Vec<Taken>> = Vec::new();
    let mut room = 0;
    for m in all {
        let size = 7 + m.payload.len();
        if size > room {
            blocks.push(Vec::new());
            room = 498;
        }
        room -= size;
        blocks.last_mut().unwrap().push(m.clone());
    }
    blocks.iter().map(|all| block_of(all)).collect()
}

/// The model's writer with what it is lent, and all blocks handed out.
struct Desk {
    writer: Writer,
    hand: [u8; BLOCK],
    journal: Vec<u8>,
}

impl Desk {
    /// Goes on behind a journal, all of which must be right.
    fn after(journal: &[u8]) -> Desk {
        let found = read(journal).unwrap();
        assert_eq!(found.blocks * BLOCK, journal.len());
        Desk {
            writer: Writer::after(found.tail),
            hand: [BLANK; BLOCK],
            journal: journal.to_vec(),
        }
    }

    fn handed_out(&mut self, out: &[u8; BLOCK], written: usize) -> usize {
        assert!(out[written..].iter().all(|&byte| byte == !BLANK));
        assert!(written == 0 || written == BLOCK);
        self.journal.extend(&out[..written]);
        written / BLOCK
    }

    /// Writes a message; how many blocks were handed out.
    fn write(&mut self, m: &Taken) -> usize {
        let mut out = [!BLANK; BLOCK];
        let written = self.writer.write(&m.message(), &mut self.hand, &mut out);
        self.handed_out(&out, written.unwrap())
    }

    fn write_all(&mut self, all: &[Taken]) {
        for m in all {
            self.write(m);
        }
    }

    fn finish(&mut self) -> usize {
        let mut out = [!BLANK; BLOCK];
        let hand = self.hand;
        let written = self.writer.finish(&self.hand, &mut out);
        assert_eq!(self.hand, hand);
        self.handed_out(&out, written.unwrap())
    }

    /// The number of the question that refuses a message; nothing changes.
    fn refused(&self, m: &Taken) -> u8 {
        let (mut writer, mut hand, mut out) = (self.writer, self.hand, [!BLANK; BLOCK]);
        let refusal = writer.write(&m.message(), &mut hand, &mut out).unwrap_err();
        assert_eq!(writer, self.writer);
        assert_eq!(hand, self.hand);
        assert_eq!(out, [!BLANK; BLOCK]);
        refusal.number()
    }
}

/// The journal that the model writes of these messages.
fn written(all: &[Taken]) -> Vec<u8> {
    let mut desk = Desk::after(&[]);
    desk.write_all(all);
    desk.finish();
    desk.journal
}

/// What reading finds: how many blocks, and the messages themselves.
fn listed(journal: &[u8]) -> (usize, Vec<Taken>) {
    let found = read(journal).unwrap();
    let all: Vec<Taken> = messages(journal, found.blocks)
        .map(|m| Taken {
            number: m.number,
            originator: m.originator,
            count: m.count,
            payload: m.payload.to_vec(),
        })
        .collect();
    assert_eq!(found.messages, all.len());
    match all.last() {
        None => assert_eq!(found.tail, Tail::FRESH),
        Some(m) => {
            assert_eq!(found.tail.last, m.number);
            assert!(!found.tail.free);
        }
    }
    (found.blocks, all)
}

/// Messages from a number on, of all sizes.
fn any_messages(random: &mut Random, first: u32, many: usize) -> Vec<Taken> {
    (0..many)
        .map(|before| {
            let length = match random.below(4) {
                0 => 0,
                1 => random.below(8),
                2 => random.below(241),
                _ => 237 + random.below(4),
            };
            Taken {
                number: first + before as u32,
                originator: random.below(16) as u8,
                count: match random.below(3) {
                    0 => 1,
                    1 => MAX,
                    _ => (random.next() as u32).max(1),
                },
                payload: (0..length).map(|_| random.next() as u8).collect(),
            }
        })
        .collect()
}

/// 512 bytes of noise whose sum is wrong.
fn junk(random: &mut Random) -> Vec<u8> {
    loop {
        let bytes: Vec<u8> = (0..512).map(|_| random.next() as u8).collect();
        if sealed(bytes.clone()) != bytes {
            return bytes;
        }
    }
}

/// The document's layout, byte by byte, and a sum added up by hand:
/// 75 + 2 × 74 + 3 × 66 + 4 × 49 + 8 + 10 + 11 + 15 + 17 × 2 + 18 × 97 + 19 × 98.
#[test]
fn the_worked_block() {
    let journal = written(&[taken(1, b"ab")]);
    let front = b"KJB1\0\0\0\x01\0\x01\x01\0\0\0\x01\0\x02ab";
    assert_eq!(journal.len(), 512);
    assert_eq!(journal[..19], *front);
    assert!(journal[19..508].iter().all(|&byte| byte == 0));
    assert_eq!(journal[508..], 4303u32.to_be_bytes());
    assert_eq!(listed(&journal), (1, vec![taken(1, b"ab")]));
}

#[test]
fn the_largest_sum() {
    assert_eq!(journal::sum(&[255; BLOCK]), 32_967_930);
    assert_eq!(journal::sum(&[0; BLOCK]), 0);
}

/// A length that is no multiple of 512 is refused whatever the bytes are;
/// every other journal is read.
#[test]
fn lengths() {
    assert_eq!(listed(&[]), (0, vec![]));
    let journal = written(&any_messages(&mut Random::seeded(1), 1, 20));
    for length in 0..=journal.len() {
        let part = &journal[..length];
        if length % 512 == 0 {
            assert_eq!(read(part).unwrap().blocks, length / 512);
        } else {
            assert_eq!(read(part).unwrap_err().number(), 21);
            assert_eq!(read(&vec![0; length]), Err(Refusal::WrongJournal));
            assert_eq!(Tail::FRESH.next(part), None);
        }
    }
    assert_eq!(Tail::FRESH.next(&journal), None);
}

/// 71 records without payload are 497 bytes; the 72nd begins the next block.
#[test]
fn seventy_one_records() {
    let all: Vec<Taken> = (1..=143).map(|number| taken(number, b"")).collect();
    let mut desk = Desk::after(&[]);
    for m in &all {
        let full = m.number == 72 || m.number == 143;
        assert_eq!(desk.write(m), usize::from(full), "{}", m.number);
    }
    assert_eq!((desk.writer.records, desk.writer.used), (1, 17));
    assert_eq!(desk.finish(), 1);
    assert_eq!(desk.journal[8..10], [0, 71]);
    assert_eq!(desk.journal[507], 0);
    assert_eq!(listed(&desk.journal), (3, all));
}

/// Two records of 240 bytes leave 4, in which nothing fits.
#[test]
fn the_longest_payloads() {
    let all: Vec<Taken> = (1..=6).map(|n| taken(n, &[n as u8; 240])).collect();
    let journal = written(&all);
    assert_eq!(journal, packed(&all).concat());
    assert_eq!(listed(&journal), (3, all));
    let mut both = written(&[taken(1, &[1; 240]), taken(2, &[2; 240])]);
    assert_eq!(both[504..508], [0; 4]);
    both[507] = 1;
    assert_eq!(listed(&sealed(both)), (0, vec![]));
}

/// 247 + 127 + 124 bytes end with byte 507; with one more the third record
/// begins a block of its own.
#[test]
fn a_record_that_just_fits() {
    for (third, blocks, used) in [(116, 1, 507), (117, 1, 508), (118, 2, 135)] {
        let all = [
            taken(1, &[1; 240]),
            taken(2, &[2; 120]),
            taken(3, &vec![3; third]),
        ];
        let mut desk = Desk::after(&[]);
        desk.write_all(&all);
        assert_eq!(desk.journal.len(), (blocks - 1) * 512);
        assert_eq!(desk.writer.used, used);
        desk.finish();
        assert_eq!(desk.journal, packed(&all).concat());
        assert_eq!(listed(&desk.journal), (blocks, all.to_vec()));
        if third == 117 {
            assert_eq!(desk.journal[507], 3);
        }
    }
}

/// Shutdown hands out what is in hand, and nothing twice.
#[test]
fn shutdown() {
    let mut desk = Desk::after(&[]);
    assert_eq!(desk.finish(), 0);
    desk.write(&taken(9, b"a"));
    assert_eq!(desk.finish(), 1);
    assert_eq!(desk.finish(), 0);
    assert_eq!(desk.writer, Writer::after(desk.writer.tail));
    // A short block is right in the midst of a journal.
    desk.write(&taken(10, b""));
    assert_eq!(desk.finish(), 1);
    assert_eq!(
        listed(&desk.journal),
        (2, vec![taken(9, b"a"), taken(10, b"")])
    );
}

/// The first number is free from 1 on, each later one is the next, and none
/// follows the largest.
#[test]
fn numbers() {
    for first in [1, 2, 1000, MAX - 1, MAX] {
        let mut desk = Desk::after(&[]);
        assert_eq!(desk.refused(&taken(0, b"")), 21);
        desk.write(&taken(first, b""));
        for wrong in [
            0,
            1,
            first - 1,
            first,
            first.wrapping_add(2),
            MAX - 2,
            1 << 31,
        ] {
            if wrong != first.wrapping_add(1) || first == MAX {
                assert_eq!(desk.refused(&taken(wrong, b"")), 21, "{first} {wrong}");
            }
        }
        if first == MAX {
            assert_eq!(desk.refused(&taken(0, b"")), 21);
        } else {
            desk.write(&taken(first + 1, b""));
        }
        // The rule holds across a shutdown and a restart.
        desk.finish();
        let last = desk.writer.tail.last;
        let mut again = Desk::after(&desk.journal);
        assert_eq!(again.writer, desk.writer);
        assert_eq!(again.refused(&taken(last, b"")), 21);
        assert_eq!(again.refused(&taken(last.wrapping_add(2), b"")), 21);
        if last == MAX {
            assert_eq!(again.refused(&taken(0, b"")), 21);
        } else {
            again.write(&taken(last + 1, b""));
        }
    }
}

#[test]
fn the_largest_numbers() {
    let all: Vec<Taken> = (MAX - 199..=MAX).map(|n| taken(n, b"")).collect();
    let journal = written(&all);
    assert_eq!(listed(&journal), (3, all));
    // A block of three that goes one over, and behind the largest anything.
    let three = record(1, 1, b"").repeat(3);
    assert_eq!(read(&block(MAX - 2, 3, &three)).unwrap().messages, 3);
    assert_eq!(read(&block(MAX - 1, 3, &three)).unwrap().messages, 0);
    for next in [0, 1, MAX] {
        let more = [journal.clone(), block(next, 1, &three[..7])].concat();
        assert_eq!(read(&more).unwrap().blocks, 3);
    }
}

/// A wrong record is 21 in every field, and a payload that is too long is not
/// another question's; with an unsound writer each of them is 1.
#[test]
fn wrong_records_are_refused() {
    let mut fresh = Desk::after(&[]);
    let mut later = Desk::after(&[]);
    later.write(&taken(6, b"abc"));
    for desk in [&mut fresh, &mut later] {
        let right = taken(7, b"a");
        for wrong in [
            Taken {
                originator: 16,
                ..right.clone()
            },
            Taken {
                originator: 255,
                ..right.clone()
            },
            Taken {
                count: 0,
                ..right.clone()
            },
            taken(7, &[0; 241]),
            taken(7, &[0; 600]),
            taken(0, &[0; 241]),
        ] {
            assert_eq!(desk.refused(&wrong), 21, "{wrong:?}");
            let used = desk.writer.used;
            desk.writer.used = 9;
            assert_eq!(desk.refused(&wrong), 1);
            desk.writer.used = used;
        }
        desk.write(&Taken {
            originator: 15,
            count: MAX,
            ..taken(7, &[0; 240])
        });
    }
}

/// Writers that no call leaves: each call refuses them.
#[test]
fn unsound_writers() {
    let empty = Writer::after(Tail::FRESH);
    let mut desk = Desk::after(&[]);
    desk.write_all(&[taken(6, b"abc"), taken(7, b"")]);
    let two = desk.writer;
    assert_eq!((two.first, two.records, two.used), (6, 2, 27));
    let free = Tail {
        free: true,
        ..two.tail
    };
    let last = |last| Tail { last, free: false };
    let unsound = [
        Writer { used: 9, ..empty },
        Writer { used: 11, ..empty },
        Writer {
            records: 1,
            ..empty
        },
        Writer { used: 23, ..two },
        Writer { used: 509, ..two },
        Writer { used: 0, ..two },
        Writer {
            used: usize::MAX,
            ..two
        },
        Writer { records: 0, ..two },
        Writer { records: 1, ..two },
        Writer { records: 3, ..two },
        Writer {
            records: usize::MAX / 7 + 1,
            ..two
        },
        Writer { first: 7, ..two },
        Writer {
            first: 0,
            tail: last(1),
            ..two
        },
        Writer {
            tail: last(8),
            ..two
        },
        Writer { tail: free, ..two },
    ];
    for writer in unsound {
        desk.writer = writer;
        assert_eq!(desk.refused(&taken(8, b"")), 1, "{writer:?}");
        let (mut after, mut out) = (writer, [!BLANK; BLOCK]);
        let refusal = after.finish(&desk.hand, &mut out).unwrap_err();
        assert_eq!(refusal.number(), 1);
        assert_eq!(after, writer);
        assert_eq!(out, [!BLANK; BLOCK]);
    }
    for used in [24, 27, 508] {
        assert!(Writer { used, ..two }.is_sound());
    }
}

/// Each thing that can be wrong with a block, under a right sum: reading stops
/// before it, though a right block follows.
#[test]
fn wrong_blocks() {
    let right = [record(15, 1, b"ab"), record(0, MAX, b"")].concat();
    let with = |at: usize, byte: u8| {
        let mut bytes = block(4, 2, &right);
        bytes[at] = byte;
        sealed(bytes)
    };
    let full = [240, 120, 117].map(|length| record(1, 1, &vec![7; length]));
    let full = full.concat();
    let long = |length: u16| {
        let mut body = record(1, 1, &vec![7; usize::from(length)]);
        body.extend(record(1, 1, &[]));
        block(4, 2, &body)
    };
    // The third record's length is one more than the bytes up to the sum.
    let mut over = full.clone();
    over.splice(379..381, [0, 118]);
    let wrong = [
        ("mark", with(0, b'k')),
        ("mark", with(1, b'j')),
        ("mark", with(2, b'b')),
        ("mark", with(3, b'2')),
        ("count 0", with(9, 0)),
        ("count 0, nothing else", block(4, 0, &[])),
        ("count one less, so the filling", with(9, 1)),
        ("count one more, so a record of zeros", with(9, 3)),
        ("count of 256", with(8, 1)),
        ("count of 65,535", block(4, 65_535, &right)),
        ("more records than there is room", {
            block(4, 72, &record(1, 1, b"").repeat(71))
        }),
        ("originator 16", with(10, 16)),
        ("originator 255", with(19, 255)),
        (
            "a message's count 0",
            block(4, 1, &record(1, 0, b"something")),
        ),
        ("length 241", long(241)),
        ("length 256", long(256)),
        ("length over the records' end", block(4, 3, &over)),
        ("filling, first byte", with(26, 1)),
        ("filling, last byte", with(507, 1)),
        ("number 0", block(0, 2, &right)),
        ("number before", block(3, 2, &right)),
        ("number behind the next", block(5, 2, &right)),
    ];
    let before = written(&[taken(2, b"x"), taken(3, b"")]);
    let behind = [
        block(4, 2, &right),
        block(6, 1, &right[..9]),
        block(5, 2, &right),
    ]
    .concat();
    assert_eq!(
        read(&[&before[..], &behind].concat()).unwrap().messages,
        2 + 2 + 1
    );
    for (what, bytes) in wrong {
        let journal = [&before[..], &bytes, &behind].concat();
        assert_eq!(read(&journal).unwrap().blocks, 1, "{what}");
        assert_eq!(read(&journal).unwrap().tail.last, 3, "{what}");
        assert_eq!(
            Tail {
                last: 3,
                free: false
            }
            .next(&bytes),
            None,
            "{what}"
        );
    }
    // Just beside them: length 240, and a last record that ends with 507.
    assert!(read(&[before.clone(), long(240)].concat()).unwrap().blocks == 2);
    let full = block(4, 3, &full);
    assert_eq!(read(&[before, full].concat()).unwrap().messages, 5);
}

/// A free tail takes any number above its last, another the next alone.
#[test]
fn what_may_follow() {
    let bytes = |first| block(first, 1, &record(1, 1, b""));
    let next = |last, free, first| Tail { last, free }.next(&bytes(first)).is_some();
    for last in [0, 5, MAX - 1, MAX] {
        for first in [0, 1, 4, 5, 6, 7, MAX - 1, MAX] {
            let (a, b) = (u64::from(last), u64::from(first));
            assert_eq!(next(last, true, first), b > a);
            assert_eq!(next(last, false, first), b == a + 1);
        }
    }
}

/// Random messages, with shutdowns and restarts between: what is read is what
/// was written, and each part lies in as few blocks as it can.
#[test]
fn random_journals() {
    for seed in 0..300 {
        let random = &mut Random::seeded(seed);
        let first = match random.below(3) {
            0 => 1,
            1 => 1 + random.next() as u32 / 2,
            _ => MAX - 200,
        };
        let many = random.below(120);
        let all = any_messages(random, first, many);
        let mut desk = Desk::after(&[]);
        let mut by_hand = Vec::new();
        let mut at = 0;
        while at < all.len() {
            let end = all.len().min(at + 1 + random.below(60));
            desk.write_all(&all[at..end]);
            desk.finish();
            by_hand.extend(packed(&all[at..end]).concat());
            if random.below(2) == 0 {
                desk = Desk::after(&desk.journal);
            }
            at = end;
        }
        assert_eq!(desk.journal, by_hand, "seed {seed}");
        assert_eq!(listed(&desk.journal), (by_hand.len() / 512, all));
    }
}

/// No single bit of a block may be wrong: reading gives the blocks before.
#[test]
fn every_bit_flipped() {
    for seed in 0..6 {
        let random = &mut Random::seeded(seed);
        let all = any_messages(random, 1 + seed as u32 * 1000, 30);
        let journal = written(&all);
        for at in [0, 1, journal.len() / 512 - 1] {
            let before = listed(&journal[..at * 512]);
            assert_eq!(before.0, at);
            for bit in 0..512 * 8 {
                let mut torn = journal.clone();
                torn[at * 512 + bit / 8] ^= 1 << (bit % 8);
                assert_eq!(listed(&torn), before, "seed {seed}: block {at}, bit {bit}");
            }
        }
    }
}

/// Wherever the current fails: the block in writing is absent, complete or
/// junk whose sum is wrong. Reading gives the finished blocks, with the last if
/// it is complete; what is written from there on is read behind them.
#[test]
fn torn_tails() {
    for seed in 0..40 {
        let random = &mut Random::seeded(seed);
        let first = 1 + random.next() as u32 / 2;
        let all = any_messages(random, first, 40);
        let blocks = packed(&all);
        for at in 0..blocks.len() {
            let finished = blocks[..at].concat();
            let (found, kept) = listed(&finished);
            assert_eq!(found, at);

            let complete = [&finished[..], &blocks[at]].concat();
            let (found, more) = listed(&complete);
            assert_eq!(found, at + 1);
            assert_eq!(more, all[..more.len()]);

            let torn = [&finished[..], &junk(random)].concat();
            assert_eq!(listed(&torn), (at, kept.clone()));
            go_on(&finished, &all[kept.len()..], &all);
            go_on(&complete, &all[more.len()..], &all);
            go_on(&torn, &all[kept.len()..], &all);
        }
    }
}

/// A restart behind any journal: cut it to the right blocks and go on.
fn go_on(journal: &[u8], more: &[Taken], all: &[Taken]) {
    let Found { blocks, tail, .. } = read(journal).unwrap();
    let mut desk = Desk::after(&journal[..blocks * 512]);
    assert_eq!(desk.writer, Writer::after(tail));
    desk.write_all(more);
    desk.finish();
    let (whole, messages) = listed(&desk.journal);
    assert_eq!(whole * 512, desk.journal.len());
    assert_eq!(messages, all);
}

/// The last block torn at every byte: cut there, or junk from there on. A cut
/// file is no journal, and its whole blocks are still found.
#[test]
fn torn_at_every_byte() {
    let random = &mut Random::seeded(8);
    for (first, many) in [(1, 9), (MAX - 40, 40)] {
        let all = any_messages(random, first, many);
        let journal = written(&all);
        let start = journal.len() - 512;
        let finished = listed(&journal[..start]);
        let whole = listed(&journal);
        for at in 0..512 {
            let part = &journal[..start + at];
            assert_eq!(read(part).is_err(), at > 0);
            assert_eq!(journal::found(part), read(&journal[..start]).unwrap());

            let noise = junk(random);
            for fill in [[0; 512].as_slice(), &[255; 512], &noise] {
                let mut torn = [part, &fill[at..]].concat();
                let expected = if torn == journal { &whole } else { &finished };
                assert_eq!(&listed(&torn), expected, "{at}");
                // What lies behind a wrong block is not looked at.
                torn.extend(block(whole.1.last().unwrap().number, 1, &record(1, 1, b"")));
                assert_eq!(&listed(&torn), expected, "{at}");
            }
        }
    }
}

/// Any bytes can be read.
#[test]
fn noise() {
    let random = &mut Random::seeded(5);
    for _ in 0..2000 {
        let mut bytes = junk(random);
        if random.below(2) == 0 {
            bytes[..4].copy_from_slice(b"KJB1");
            bytes[4..10].copy_from_slice(&[0, 0, 0, 1, 0, 1 + random.below(3) as u8]);
            bytes = sealed(bytes);
        }
        // Its records or its filling are wrong.
        assert_eq!(listed(&bytes), (0, vec![]));
    }
}

/// A right block is the one block of its messages, whoever wrote it.
#[test]
fn one_block_for_its_messages() {
    let (mut right, mut wrong) = (0, 0);
    for seed in 0..400 {
        let random = &mut Random::seeded(seed);
        let many = 1 + random.below(20);
        let mut journal = written(&any_messages(random, 1, many));
        // Changed where numbers stand, so that some blocks stay right.
        let at = random.below(journal.len() / 512) * 512;
        let byte = &mut journal[at + [5, 7, 9, 10, 14, 16, 17, 507][random.below(8)]];
        *byte = byte.wrapping_add(1 + random.below(3) as u8);
        let resealed = sealed(journal[at..at + 512].to_vec());
        journal.splice(at..at + 512, resealed);

        let (blocks, all) = listed(&journal);
        let mut rest = &all[..];
        for block in journal.chunks_exact(512).take(blocks) {
            let (own, behind) = rest.split_at(usize::from(block[9]));
            assert_eq!(block_of(own), block, "seed {seed}");
            rest = behind;
        }
        assert_eq!(rest, []);
        if blocks > at / 512 {
            right += 1;
        } else {
            wrong += 1;
        }
    }
    assert!(right > 50 && wrong > 50, "{right}, {wrong}");
}
