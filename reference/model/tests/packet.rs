//! Packets alone: layout, allowed fields, refusals.

mod common;

use common::{BLANK, GROUP, MAX, packet};
use model::limits::{PACKET, PAYLOAD};
use model::packet::{Header, payload, read, survivors, write};

fn header(kind: u8, member: u8, [a, b, c]: [u32; 3]) -> Header {
    Header {
        kind,
        member,
        group: GROUP,
        a,
        b,
        c,
    }
}

fn read_refused(packet: &[u8]) -> u8 {
    read(packet).unwrap_err().number()
}

fn write_refused(header: &Header, payload: &[u8], lent: usize) -> u8 {
    let mut out = vec![BLANK; lent];
    let refusal = write(header, payload, &mut out).unwrap_err();
    assert!(out.iter().all(|&byte| byte == BLANK));
    refusal.number()
}

#[test]
fn layout() {
    let header = Header {
        kind: 2,
        member: 0x0f,
        group: 0x0102_0304,
        a: 0xa1a2_a3a4,
        b: 0xb1b2_b3b4,
        c: 0x8182_8384,
    };
    let mut out = [BLANK; PACKET + 2];
    assert_eq!(write(&header, b"xyz", &mut out), Ok(23));
    assert_eq!(
        out[..23],
        [
            2, 0x0f, 0, 3, 1, 2, 3, 4, 0xa1, 0xa2, 0xa3, 0xa4, 0xb1, 0xb2, 0xb3, 0xb4, 0x81, 0x82,
            0x83, 0x84, b'x', b'y', b'z'
        ]
    );
    assert!(out[23..].iter().all(|&byte| byte == BLANK));
    assert_eq!(read(&out[..23]), Ok(header));
    assert_eq!(payload(&out[..23]), b"xyz");
}

/// Question 6 as the list of kinds words it.
fn obeys(kind: u8, member: u8, [a, b, c]: [u32; 3], payload: &[u8]) -> bool {
    match kind {
        1 => b != 0 && c == 0,
        2 | 6 => a != 0 && b != 0 && c < a,
        3 => a < b && b <= c,
        4 => [b, c] == [0, 0],
        5 => b == 0 && a >= c,
        7 | 8 => a != 0 && [b, c] == [0, 0],
        9 => [b, c] == [0, 0],
        10 => c == 0,
        11 => [u32::from(member), b].iter().all(|&named| {
            let survives = |bit: u32| payload[1 - bit as usize / 8] & 1 << (bit % 8) != 0;
            named < 16 && survives(named)
        }),
        _ => unreachable!(),
    }
}

#[test]
fn every_kind_with_edge_fields() {
    let words = [0, 1, 2, 15, 16, 255, 256, MAX - 1, MAX];
    let lengths = [0, 1, 2, 3, PAYLOAD - 1, PAYLOAD, PAYLOAD + 1, 300];
    let mut payloads = Vec::from(lengths.map(|length| vec![0x5a; length]));
    payloads.extend([[0, 0], [0, 1], [0, 3], [0x80, 2], [0xff; 2]].map(Vec::from));
    let mut allowed = 0;
    for kind in [0, 1, 2, 3, 4, 5, 6, 7, 8, 9, 10, 11, 12, 255] {
        for member in [0, 1, 15, 16, 255] {
            for fields in words
                .iter()
                .flat_map(|&a| words.iter().flat_map(move |&b| words.map(|c| [a, b, c])))
            {
                for payload in &payloads {
                    let header = header(kind, member, fields);
                    let bytes = packet(kind, member, fields, payload);
                    let verdict = if !(1..=11).contains(&kind) {
                        4
                    } else if [3, 4, 5, 7, 8, 9, 10].contains(&kind) && !payload.is_empty()
                        || kind == 11 && payload.len() != 2
                    {
                        5
                    } else if !obeys(kind, member, fields, payload) {
                        6
                    } else if payload.len() > PAYLOAD {
                        13
                    } else {
                        0
                    };
                    if verdict == 0 {
                        allowed += 1;
                        let mut out = [BLANK; PACKET];
                        assert_eq!(write(&header, payload, &mut out), Ok(bytes.len()));
                        assert_eq!(out[..bytes.len()], bytes[..]);
                        assert!(out[bytes.len()..].iter().all(|&byte| byte == BLANK));
                        assert_eq!(read(&bytes), Ok(header));
                    } else {
                        assert_eq!(write_refused(&header, payload, PACKET), verdict);
                        let verdict = if payload.len() > PAYLOAD { 3 } else { verdict };
                        assert_eq!(read_refused(&bytes), verdict);
                    }
                }
            }
        }
    }
    assert!(allowed > 1000);
}

#[test]
fn sizes_and_lengths() {
    for length in [0, 1, 19, PACKET + 1, PACKET + 2, 100_000] {
        assert_eq!(read_refused(&vec![1; length]), 3);
    }
    let good = packet(1, 0, [0, 1, 0], &[9; PAYLOAD]);
    assert_eq!(good.len(), PACKET);
    assert!(read(&good).is_ok());
    // Cut, drawn out, and L too small, too large or far too large.
    assert_eq!(read_refused(&good[..PACKET - 1]), 5);
    assert_eq!(read_refused(&good[..20]), 5);
    let mut faulty = packet(1, 0, [0, 1, 0], b"ab");
    for length in [0u16, 1, 3, 256, 258, 65_535] {
        faulty[2..4].copy_from_slice(&length.to_be_bytes());
        assert_eq!(read_refused(&faulty), 5);
    }
    for kind in [3, 4, 5, 7, 8, 9, 10] {
        let mut faulty = packet(kind, 0, [2, 3, 4], b"");
        faulty[3] = 1;
        assert_eq!(read_refused(&faulty), 5);
        faulty.push(0);
        assert_eq!(read_refused(&faulty), 5);
    }
    // A result has just two bytes behind its header.
    assert!(read(&packet(11, 0, [2, 1, 4], &[0, 3])).is_ok());
    for length in [0, 1, 3, 4, PAYLOAD] {
        assert_eq!(read_refused(&packet(11, 0, [2, 1, 4], &vec![3; length])), 5);
    }
}

/// Group 7, member 2 makes group 9 of members 1, 2 and 15, which 15 numbers
/// from 6 on.
#[test]
fn a_result() {
    let bytes = packet(11, 2, [9, 15, 5], &[0x80, 0x06]);
    let expected = [
        11, 2, 0, 2, 0, 0, 0, 7, 0, 0, 0, 9, 0, 0, 0, 15, 0, 0, 0, 5, 0x80, 0x06,
    ];
    assert_eq!(bytes, expected);
    assert_eq!(read(&bytes), Ok(header(11, 2, [9, 15, 5])));
    assert_eq!(survivors(payload(&bytes)), 0x8006);
    // The sender and the sequencer are survivors.
    for (member, b) in [
        (0, 15),
        (3, 15),
        (16, 15),
        (255, 15),
        (2, 0),
        (2, 16),
        (2, MAX),
    ] {
        assert_eq!(
            read_refused(&packet(11, member, [9, b, 5], &[0x80, 0x06])),
            6
        );
    }
    // Numbers may be any, also those of an invitation and a reply.
    for number in [0, 1, MAX] {
        assert!(read(&packet(11, 2, [number, 15, number], &[0x80, 0x06])).is_ok());
        assert!(read(&packet(9, 255, [number, 0, 0], b"")).is_ok());
        assert!(read(&packet(10, 255, [number, number, 0], b"")).is_ok());
    }
}

#[test]
fn the_first_question_counts() {
    // Everything is wrong; each step repairs what was refused.
    let mut bytes = packet(0, 1, [0, 0, 1], &[0; PAYLOAD + 1]);
    assert_eq!(read_refused(&bytes), 3);
    bytes.truncate(30);
    assert_eq!(read_refused(&bytes), 4);
    bytes[0] = 1;
    assert_eq!(read_refused(&bytes), 5);
    bytes[3] = 10;
    assert_eq!(read_refused(&bytes), 6);
    bytes[15] = 1;
    bytes[19] = 0;
    assert_eq!(read(&bytes), Ok(header(1, 1, [0, 1, 0])));

    let long = [0; PAYLOAD + 1];
    let faulty = header(12, 1, [0, 0, 1]);
    for lent in [0, 1, 20, PACKET - 1] {
        assert_eq!(write_refused(&faulty, &long, lent), 2);
    }
    assert_eq!(write_refused(&faulty, &long, PACKET), 4);
    let faulty = header(4, 1, [0, 0, 1]);
    assert_eq!(write_refused(&faulty, &long, PACKET), 5);
    assert_eq!(write_refused(&faulty, &long[..1], PACKET), 5);
    let faulty = header(1, 1, [0, 0, 1]);
    assert_eq!(write_refused(&faulty, &long, PACKET), 6);
    let good = header(1, 1, [0, 1, 0]);
    assert_eq!(write_refused(&good, &long, PACKET), 13);
    // The output must be long enough for any packet, not just for this one.
    assert_eq!(write_refused(&good, b"", PACKET - 1), 2);
    assert_eq!(write(&good, &long[..PAYLOAD], &mut [0; PACKET]), Ok(PACKET));
}
