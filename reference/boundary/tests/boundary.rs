//! What crosses the boundary is what the other side sees.

use boundary::ends::{self, Membership, Sequencing, Told};
use boundary::proved::{MemberState, SequencerState};
use boundary::{
    FINISH, LOAD_LINE, Member, Sequencer, Writer, feeds, list, messages, proved, records, reference,
};
use model::jobs::{ADD, FETCH, List};
use model::journal::{BLOCK, Message};
use model::limits::{PACKET, PAYLOAD};
use model::packet::Header;
use model::{member, sequencer};

const HEADER: Header = Header {
    kind: 1,
    member: 1,
    group: 7,
    a: 0,
    b: 1,
    c: 0,
};

#[test]
fn the_documents_packet() {
    let mut out = [0xaa; PACKET + 4];
    assert_eq!(proved::write(&HEADER, b"ab", &mut out), Ok(22));
    let packet = [
        1, 1, 0, 2, 0, 0, 0, 7, 0, 0, 0, 0, 0, 0, 0, 1, 0, 0, 0, 0, 0x61, 0x62,
    ];
    assert_eq!(out[..22], packet);
    assert_eq!(out[22..], [0xaa; PACKET - 18]);
    assert_eq!(proved::read(&packet), Ok(HEADER));
}

#[test]
fn every_field_has_its_place() {
    let header = Header {
        kind: 2,
        member: 0x12,
        group: 0x3456_789a,
        a: 0xbcde_f011,
        b: 0x2233_4455,
        c: 0x6677_8899,
    };
    let (mut here, mut there) = ([0; PACKET], [0; PACKET]);
    assert_eq!(proved::write(&header, &[], &mut here), Ok(20));
    assert_eq!(reference::write(&header, &[], &mut there), Ok(20));
    assert_eq!(here, there);
    assert_eq!(proved::read(&here[..20]), Ok(header));
}

#[test]
fn refusals_are_numbers_and_change_nothing() {
    assert_eq!(proved::read(&[]), Err(3));
    assert_eq!(proved::read(&[0; 20]), Err(4));
    let mut out = [0xaa; PACKET];
    assert_eq!(proved::write(&HEADER, &[], &mut out[..PACKET - 1]), Err(2));
    assert_eq!(proved::write(&HEADER, &[0; PAYLOAD + 1], &mut out), Err(13));
    assert_eq!(
        proved::write(&Header { b: 0, ..HEADER }, &[], &mut out),
        Err(6)
    );
    assert_eq!(out, [0xaa; PACKET]);
}

/// Empty slices, and lists that are cut off in a length or in a packet.
#[test]
fn odd_slices() {
    let (n, group, heard) = (2, 7, &[][..]);
    let end = Sequencer {
        n,
        group,
        resilience: 0,
        heard,
    };
    for packets in [
        &[][..],
        &[0],
        &[0, 0],
        &[0, 0, 0],
        &[0, 5],
        &[0, 1, 9, 0],
        &[0, 1, 9, 0, 0],
        &[0, 200, 1, 2],
        &[1, 0, 9],
        &[255, 255],
    ] {
        assert_eq!(
            ends::sequencer_receive::<SequencerState>(end, packets, 3, &mut []),
            ends::sequencer_receive::<sequencer::Sequencer>(end, packets, 3, &mut [])
        );
        assert_eq!(
            proved::read_rounds(packets, 3),
            reference::read_rounds(packets, 3)
        );
    }
    // Refused by question 2, which says 2 and writes nothing.
    let refused = told(2, [0; 3], 0);
    let sequencer: SequencerState = ends::sequencer(end, &mut []);
    assert_eq!(sequencer.poll(&mut []), refused);
}

/// A length needs both its bytes: the packet behind a long one is read too.
#[test]
fn long_packets() {
    let packets = list([&[1; 300][..], &[0; 20]]);
    assert_eq!(packets[..2], [1, 44]);
    // Refused by question 3, and the second by 4.
    assert_eq!(proved::read_rounds(&packets, 1), 3 * 3 + 4);
    assert_eq!(reference::read_rounds(&packets, 1), 3 * 3 + 4);
}

/// The longest packets, whose lengths have two bytes, cross whole.
#[test]
fn packets_over_255_bytes() {
    let (n, group, heard) = (2, 7, &[][..]);
    let end = Sequencer {
        n,
        group,
        resilience: 0,
        heard,
    };
    for size in 256..=PACKET {
        let mut out = [0; PACKET];
        let payload = vec![0x5a; size - 20];
        assert_eq!(proved::write(&HEADER, &payload, &mut out), Ok(size));
        assert_eq!(proved::read(&out[..size]), Ok(HEADER));
        let packets = list([&out[..size], &[0; 20]]);
        assert_eq!(
            proved::read_rounds(&packets, 1),
            reference::read_rounds(&packets, 1)
        );
        // Numbered 1 with a broadcast of as many bytes.
        let mut sequencer: SequencerState = ends::sequencer(end, &mut out);
        let packet = out;
        let numbered = told(37, [1, 0, 0], size);
        assert_eq!(sequencer.receive(&packet[..size], &mut out), numbered);
    }
}

/// What a call tells.
fn told(code: u32, numbers: [u32; 3], written: usize) -> Told {
    Told {
        code,
        numbers,
        more: 0,
        written,
    }
}

/// The same answers and the same lent bytes of two functions.
macro_rules! equal {
    ($here:expr, $there:expr, ($($word:expr),*)) => {
        let (mut here, mut there) = ([0xaa; PACKET + 4], [0xaa; PACKET + 4]);
        assert_eq!($here($($word,)* &mut here), $there($($word,)* &mut there));
        assert_eq!(here, there);
    };
}

/// Of both sides.
macro_rules! same {
    ($call:ident($($word:expr),*)) => {
        equal!(proved::$call, reference::$call, ($($word),*));
    };
}

/// Of the sequencers of both sides.
macro_rules! same_sequencer {
    ($call:ident($($word:expr),*)) => {
        equal!(ends::$call::<SequencerState>, ends::$call::<sequencer::Sequencer>, ($($word),*));
    };
}

/// Of the members of both sides.
macro_rules! same_member {
    ($call:ident($($word:expr),*)) => {
        equal!(ends::$call::<MemberState>, ends::$call::<member::Member>, ($($word),*));
    };
}

#[test]
fn rounds_of_every_call() {
    let mut out = [0; PACKET];
    let length = proved::write(&HEADER, b"ab", &mut out).unwrap();
    let requests = list([&out[..length]]);
    let broadcast = Header {
        kind: 2,
        a: 1,
        ..HEADER
    };
    let length = proved::write(&broadcast, b"ab", &mut out).unwrap();
    let broadcasts = list([&out[..length]]);

    let (n, number, group) = (2, 1, 7);
    let heard = &requests[..];
    let end = Sequencer {
        n,
        group,
        resilience: 0,
        heard,
    };
    same_sequencer!(sequencer_poll(end, 5));
    same_sequencer!(sequencer_copy(end, 1, 5));
    same_sequencer!(sequencer_copy(end, 2, 5));
    same_sequencer!(sequencer_receive(end, heard, 5));

    // The second and the third are Again: member 1's count and the sum are 2.
    let heard = &[heard, heard, heard].concat()[..];
    let end = Sequencer {
        n,
        group,
        resilience: 0,
        heard,
    };
    let sequencer: SequencerState = ends::sequencer(end, &mut out);
    let other: sequencer::Sequencer = ends::sequencer(end, &mut out);
    assert_eq!(sequencer.as_reference(), other);
    assert_eq!(sequencer.repeats[..2], [0, 2]);
    assert_eq!((sequencer.all_repeats(), other.all_repeats()), (2, 2));

    let heard = &broadcasts[..];
    let end = Member {
        n,
        number,
        group,
        resilience: 0,
        heard,
        takes: 0,
    };
    let taken = Member { takes: 1, ..end };
    same_member!(member_receive(taken, heard, 5));
    same_member!(member_take(taken, 3, 5));
    same_member!(member_status(taken, 5));
    same_member!(member_receive(end, heard, 5));
    same_member!(member_submit(end, b"c", 1, 5));
    same_member!(member_repeat(end, b"c", 5));
    same_member!(member_queue(taken, b"c", 3, 4, 5));
    same_member!(member_take(end, 3, 5));
    same!(terminal_take(end, 3));
    same_member!(member_status(end, 5));
    for kind in 0..10 {
        same!(write(&Header { kind, ..HEADER }, b"ab"));
    }
}

/// With a resilience degree of 2 an offer is marked, then accepted, and taken.
#[test]
fn offered_then_accepted() {
    let mut out = [0; PACKET];
    let mut sequencer = SequencerState::CLOSED;
    assert_eq!(sequencer.open(3, 7, 3), told(24, [0; 3], 0));
    assert_eq!(sequencer.open(3, 7, 2), told(39, [0; 3], 0));
    let mut members = [MemberState::CLOSED, MemberState::CLOSED];
    for (member, number) in members.iter_mut().zip(1..) {
        assert_eq!(member.open(3, number, 7, 3), told(24, [0; 3], 0));
        assert_eq!(member.open(3, number, 7, 2), told(39, [0; 3], 0));
    }
    members[0].submit(b"ab", &mut out);
    let request = out;
    assert_eq!(
        sequencer.receive(&request[..22], &mut out),
        told(37, [1, 0, 0], 22)
    );
    assert_eq!(out[0], 6);
    let offer = out;
    for (member, expected) in members.iter_mut().zip([(40, 0), (39, 20)]) {
        let mut answer = [0; PACKET];
        assert_eq!(
            member.receive(&offer[..22], &mut answer),
            told(48, [0; 3], 20)
        );
        assert_eq!(answer[0], 7);
        assert_eq!(member.take(&mut [0; PACKET]), told(54, [0; 3], 0));
        let (code, written) = expected;
        assert_eq!(
            sequencer.receive(&answer[..20], &mut out),
            told(code, [0; 3], written)
        );
    }
    assert_eq!(out[0], 8);
    let accepted = out;
    for member in &mut members {
        assert_eq!(
            member.receive(&accepted[..20], &mut out),
            told(34, [0; 3], 0)
        );
        assert_eq!(member.take(&mut out), told(55, [1, 1, 1], 2));
        assert_eq!(out[..2], *b"ab");
    }
}

/// The numbers and the code of a take, and a state that is left by a refusal.
#[test]
fn what_is_told() {
    let mut out = [0; PACKET];
    let mut member = MemberState::CLOSED;
    assert_eq!(member.open(0, 0, 7, 0), told(18, [0; 3], 0));
    assert_eq!(member.status(&mut out), told(1, [0; 3], 0));
    assert_eq!(member, MemberState::CLOSED);
    assert_eq!(member.open(2, 1, 7, 0), told(39, [0; 3], 0));
    assert_eq!(member.submit(b"ab", &mut out), told(35, [0; 3], 22));
    assert_eq!(member.submit(b"cd", &mut out), told(56, [2, 0, 0], 0));

    let mut sequencer = SequencerState::CLOSED;
    assert_eq!(sequencer.open(17, 7, 0), told(18, [0; 3], 0));
    assert_eq!(sequencer.open(2, 7, 0), told(39, [0; 3], 0));
    member.repeat(&mut out);
    let request = out;
    assert_eq!(
        sequencer.receive(&request[..22], &mut out),
        told(37, [1, 0, 0], 22)
    );
    assert_eq!(
        member.receive(&out[..22], &mut [0; PACKET]),
        told(48, [0; 3], 0)
    );
    let took = member.take(&mut out);
    assert_eq!(took, told(55, [1, 1, 1], 2));
    assert_eq!(out[..2], *b"ab");
    assert_eq!(sequencer.copy(2, &mut out), told(17, [0; 3], 0));
    assert_eq!(sequencer.copy(1, &mut out), told(35, [0; 3], 22));
    assert_eq!(sequencer.poll(&mut out), told(35, [0; 3], 20));

    // One byte behind a payload: every call says 1 and leaves the state.
    let mut unsound = sequencer.clone();
    unsound.payloads[1][2] = 1;
    let before = unsound.clone();
    assert_eq!(
        unsound.receive(&request[..22], &mut out),
        told(1, [0; 3], 0)
    );
    assert_eq!(unsound, before);
}

/// A work list: feeds that are cut off, records that are missing, and a list
/// with a record of each state.
#[test]
fn feeds_of_a_list() {
    let messages = [
        (1, vec![ADD, 7]),
        (2, vec![FETCH]),
        (16, vec![ADD]),
        (3, vec![ADD]),
        (3, vec![FETCH]),
        (2, vec![FETCH]),
        (2, vec![]),
    ];
    let all = feeds(&messages);
    for size in 0..=all.len() {
        assert_eq!(
            proved::feed_rounds(&[], &all[..size], 2),
            reference::feed_rounds(&[], &all[..size], 2)
        );
    }
    // Added, then the first record: waiting, no member, one byte.
    let record = records(&List::empty().records[..1]);
    let one = feeds(&[(0, vec![ADD, 7])]);
    let sum = [64, 1, 0, 1, 7];
    let sum = sum.iter().fold(0u64, |sum, value| 3 * sum + value);
    let zeros = 238 + 63 * 242;
    let sum = (0..zeros).fold(sum, |sum, _| sum.wrapping_mul(3));
    assert_eq!(proved::feed_rounds(&record, &one, 1), sum);

    let mut list = List::empty();
    for (originator, payload) in &messages[..5] {
        list.feed(*originator, payload);
    }
    let records = records(&list.records);
    for size in [0, 1, 244, 245, 246, 490, records.len() - 1, records.len()] {
        assert_eq!(
            proved::feed_rounds(&records[..size], &all, 1),
            reference::feed_rounds(&records[..size], &all, 1)
        );
    }
}

/// Every stored schedule.
#[test]
fn stored_schedules() {
    for schedule in schedules::all() {
        let expected = schedule.played();
        let mut out = vec![0xaa; expected.len() + 1];
        let length = proved::play(&schedule.text, &mut out);
        assert_eq!(out[..length], expected, "{}", schedule.shows);
        assert_eq!(out[length..], [0xaa], "{}", schedule.shows);
    }
}

/// Loads of every n and of edges, byte for byte.
#[test]
fn loads() {
    for seed in [0, 1, 42, 0x8000_0000, u32::MAX] {
        for n in (0..=17).chain([256, 260, u32::MAX]) {
            for group in [0, 7, u32::MAX] {
                assert_eq!(
                    proved::load(seed, n, group, 500),
                    reference::load(seed, n, group, 500)
                );
            }
        }
        assert_eq!(
            proved::generator(seed, 1000),
            reference::generator(seed, 1000)
        );
        assert_eq!(
            proved::load_lines(seed, 16, 1000),
            reference::load_lines(seed, 16, 1000)
        );
    }
}

/// A load of no members, or of more than 16, has no line: nothing is written, and the state stays.
#[test]
fn a_load_without_lines() {
    for n in [0, 17, 255] {
        let mut line = [0xaa; LOAD_LINE];
        assert_eq!(proved::load_next(42, n, &mut line), (0, 42));
        assert_eq!(line, [0xaa; LOAD_LINE]);
    }
}

/// What lies behind a line keeps its value.
#[test]
fn behind_a_line() {
    let mut line = [0xaa; LOAD_LINE];
    let (size, state) = proved::load_next(0, 3, &mut line);
    assert_eq!(&line[..size], b"M 140 0\n");
    assert_eq!(line[size..], [0xaa; LOAD_LINE - 8]);
    assert_eq!(state, 2_654_435_769u32.wrapping_mul(3));
}

/// A message of member 3 with the payload `ab`.
fn message(number: u32) -> Message<'static> {
    Message {
        number,
        originator: 3,
        count: 9,
        payload: b"ab",
    }
}

/// The block of one message, laid by hand.
fn block(number: u32) -> [u8; BLOCK] {
    let mut block = [0; BLOCK];
    block[..4].copy_from_slice(b"KJB1");
    block[4..8].copy_from_slice(&number.to_be_bytes());
    block[8..19].copy_from_slice(&[0, 1, 3, 0, 0, 0, 9, 0, 2, b'a', b'b']);
    let weighted = (1..).zip(&block[..BLOCK - 4]);
    let sum: u32 = weighted
        .map(|(weight, &byte)| weight * u32::from(byte))
        .sum();
    block[BLOCK - 4..].copy_from_slice(&sum.to_be_bytes());
    block
}

/// A writer hands out the block of its message at shutdown, and it is read.
#[test]
fn a_block_of_the_journal() {
    let fresh = Writer::after(0, true);
    let list = messages([message(5), FINISH, message(6), FINISH]);
    let (mut out, mut other) = ([0xaa; 2 * BLOCK + 1], [0xaa; 2 * BLOCK + 1]);
    let sum = proved::journal_write(fresh, &list, 1, &mut out);
    assert_eq!(sum, reference::journal_write(fresh, &list, 1, &mut other));
    assert_eq!(out, other);
    assert_eq!(out[..BLOCK], block(5));
    assert_eq!(out[BLOCK..2 * BLOCK], block(6));
    assert_eq!(out[2 * BLOCK..], [0xaa]);
    // Two blocks, two messages, the last number 6, and the next alone may follow.
    let sum = ((2 * 3 + 2) * 3 + 6) * 3;
    assert_eq!(proved::journal_read(&out[..2 * BLOCK], 1), sum);
    // Refused by question 21.
    assert_eq!(proved::journal_read(&out, 1), 21);
    // An empty journal: any number above 0 may follow.
    assert_eq!(proved::journal_read(&[], 1), 1);
    // The number that was asked for, originator 3, count 9, and 2 bytes from index 17.
    let sum = (((7 * 3 + 3) * 3 + 9) * 3 + 17) * 3 + 2;
    assert_eq!(proved::journal_record(&out[..BLOCK], 10, 7), sum);
    assert_eq!(proved::journal_record(&out, 10, 7), 1);
}

/// Messages that a journal refuses, and unsound writers.
#[test]
fn refused_by_the_journal() {
    let long = [0; PAYLOAD + 1];
    let refused = [
        Message {
            originator: 16,
            ..message(8)
        },
        Message {
            count: 0,
            ..message(8)
        },
        Message {
            payload: &long,
            ..message(8)
        },
        message(7),
        message(9),
    ];
    let after = Writer::after(7, false);
    // The answer, the state behind it and the bytes written.
    let check = |writer, message, values: [u64; 7]| {
        let mut out = [0xaa; BLOCK];
        let list = messages([message]);
        let sum = proved::journal_write(writer, &list, 1, &mut out);
        assert_eq!(sum, values.iter().fold(0, |sum, value| 3 * sum + value));
        assert_eq!(out, [0xaa; BLOCK]);
        assert_eq!(sum, reference::journal_write(writer, &list, 1, &mut out));
    };
    for message in refused {
        check(after, message, [21, 7, 0, 0, 0, 10, 0]);
    }
    check(after, message(8), [48, 8, 0, 8, 1, 19, 0]);
    let unsound = Writer { used: 11, ..after };
    check(unsound, message(8), [1, 7, 0, 0, 0, 11, 0]);
    check(unsound, FINISH, [1, 7, 0, 0, 0, 11, 0]);
}

/// The plan and the rewritten journal of three messages, and outputs a byte short.
#[test]
fn a_plan() {
    let one = |number, payload| Message {
        payload,
        ..message(number)
    };
    let list = messages([
        one(5, &[3, 0, 9, b'x']),
        one(6, &[3, 0, 2]),
        one(7, &[3, 0, 9, b'y', b'z']),
        FINISH,
    ]);
    let mut journal = [0; BLOCK];
    proved::journal_write(Writer::after(0, true), &list, 1, &mut journal);

    let rows = [0, 2, 0, 0, 0, 9, 0, 2, b'y', b'z'];
    let mut out = [0xaa; 12];
    assert_eq!(proved::plan(&journal, 1, &mut out), 3 * 68 + 10);
    assert_eq!(out[..10], rows);
    assert_eq!(out[10..], [0xaa; 2]);
    let mut short = [0xaa; 9];
    assert_eq!(proved::plan(&journal, 1, &mut short), 23);
    assert_eq!(short, [0xaa; 9]);

    // Numbers 6 and 7 with their originator, count and payload.
    let front = [
        &b"KJB2\0\0\0\x06\0\x02"[..],
        &[0, 0, 0, 6, 3, 0, 0, 0, 9, 0, 3, 3, 0, 2],
        &[0, 0, 0, 7, 3, 0, 0, 0, 9, 0, 5, 3, 0, 9, b'y', b'z', 0],
    ];
    let front = front.concat();
    let mut out = [0xaa; BLOCK + 1];
    let laid = 3 * 68 + BLOCK as u64;
    assert_eq!(proved::rewrite(&journal, 1, &mut out), laid);
    assert_eq!(out[..front.len()], front);
    assert_eq!(out[BLOCK..], [0xaa]);
    let mut short = [0xaa; BLOCK - 1];
    assert_eq!(proved::rewrite(&journal, 1, &mut short), 23);
    assert_eq!(short, [0xaa; BLOCK - 1]);

    // The rewritten journal has the same plan; one block, two messages, and any number above 7 may follow.
    let new = &out[..BLOCK];
    assert_eq!(proved::journal_read(new, 1), ((3 + 2) * 3 + 7) * 3 + 1);
    let mut again = [0; 10];
    assert_eq!(proved::plan(new, 1, &mut again), 3 * 68 + 10);
    assert_eq!(again, rows);
    assert_eq!(proved::plan(&journal[1..], 1, &mut again), 21);
    assert_eq!(proved::rewrite(&journal[1..], 1, &mut again), 21);
}

/// 512 units are planned and rewritten, 513 are not.
#[test]
fn units_of_a_plan() {
    for units in [511, 512, 513u16] {
        let payloads: Vec<[u8; 3]> = (0..units)
            .map(|unit| {
                let [high, low] = unit.to_be_bytes();
                [3, high, low]
            })
            .collect();
        let all = (1..).zip(&payloads).map(|(number, payload)| Message {
            payload,
            ..message(number)
        });
        let list = messages(all.chain([FINISH]));
        let mut journal = [0; 11 * BLOCK];
        proved::journal_write(Writer::after(0, true), &list, 1, &mut journal);
        let (mut here, mut there) = ([0xaa; 16 * BLOCK], [0xaa; 16 * BLOCK]);
        let answer = proved::plan(&journal, 1, &mut here);
        assert_eq!(answer, reference::plan(&journal, 1, &mut there));
        assert_eq!(answer == 22, units == 513);
        assert_eq!(here, there);
        let answer = proved::rewrite(&journal, 1, &mut here);
        assert_eq!(answer, reference::rewrite(&journal, 1, &mut there));
        assert_eq!(answer == 22, units == 513);
        assert_eq!(here, there);
    }
}
