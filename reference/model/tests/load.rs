//! The generator and the load, to the byte.

use model::Refusal;
use model::group::Event;
use model::load::{Generator, Load, text};
use model::play::{event, opening};
use std::collections::BTreeSet;

/// The document's numbers.
const INCREMENT: u64 = 2_654_435_769;
const MODULUS: u64 = 4_294_967_296;

#[test]
fn the_formula() {
    for seed in [0, 1, 42, 0x8000_0000, u32::MAX] {
        let mut generator = Generator { state: seed };
        for k in 0..10_000 {
            let formula = (u64::from(seed) + k * INCREMENT) % MODULUS;
            assert_eq!(u64::from(generator.state), formula);
            generator.step();
        }
    }
}

/// No state comes back among a million.
#[test]
fn states_differ() {
    let mut generator = Generator { state: 42 };
    let states: BTreeSet<u32> = (0..1_000_000)
        .map(|_| {
            generator.step();
            generator.state
        })
        .collect();
    assert_eq!(states.len(), 1_000_000);
}

#[test]
fn the_output() {
    let outputs = [
        (0, 0),
        (1, 1),
        (0xffff, 0xffff),
        (0x1_0000, 0x1_0001),
        (0x8000_0000, 0x8000_8000),
        (0x9e37_79b9, 0x9e37_e78e),
        (u32::MAX, 0xffff_0000),
    ];
    for (state, output) in outputs {
        assert_eq!(Generator { state }.output(), output);
    }
}

/// The first events of three members, as they are proved of the library.
#[test]
fn the_first_events() {
    let smallest = "N 3 7\nM 140 0\nR 2\nT 1\nA 1\nS 0 35\nP\n";
    let largest = "N 3 7\nQ 143\nP\nM 25 0\nT 0\nA 1\nS 0 b5\n";
    for (seed, expected) in [(0, smallest), (u32::MAX, largest)] {
        let text = String::from_utf8(text(seed, 3, 7, 6).unwrap()).unwrap();
        assert_eq!(text, expected);
    }
}

#[test]
fn members_1_to_16() {
    for n in [0, 17, 256, 257, 260, u32::MAX] {
        assert_eq!(text(1, n, 7, 3), Err(Refusal::Opening));
    }
    for n in 1..=16 {
        assert_eq!(text(1, n, 7, 0), Ok(format!("N {n} 7\n").into_bytes()));
    }
}

/// Every line is read as its event, each field is within its choices, and every letter and member is
/// chosen.
#[test]
fn every_line_is_its_event() {
    for n in 1..=16 {
        let mut load = Load::open(n, n).unwrap();
        let n = n as usize;
        let (mut letters, mut members) = (BTreeSet::new(), BTreeSet::new());
        for _ in 0..10_000 {
            let chosen = load.event();
            let line = chosen.to_string();
            assert_eq!(event(line.as_bytes()), Some(chosen.clone()));
            letters.insert(line.as_bytes()[0]);
            match chosen {
                Event::Submit { member, payload } => {
                    assert_eq!(payload.len(), 1);
                    members.insert(member);
                }
                Event::Repeat { member } | Event::Take { member } | Event::Status { member } => {
                    members.insert(member);
                }
                Event::Poll => (),
                Event::Copy { number } => assert!((1..=32).contains(&number)),
                Event::ToMember { packet, member } => {
                    assert!(packet < 200);
                    members.insert(member);
                }
                Event::ToSequencer { packet } => assert!(packet < 200),
            }
        }
        assert_eq!(letters, BTreeSet::from(*b"ACMPQRST"));
        assert_eq!(members, BTreeSet::from_iter(0..n));
    }
}

#[test]
fn the_first_line_opens_the_group() {
    for (n, group) in [(1, 0), (16, u32::MAX), (4, 7)] {
        let text = text(9, n, group, 2).unwrap();
        let first = text.split(|&byte| byte == b'\n').next().unwrap();
        assert_eq!(opening(first), Some((n, group, 0)));
    }
}

/// The same seed gives the same text, however long: a shorter load begins a longer one.
#[test]
fn a_load_is_repeated_by_its_seed() {
    let long = text(42, 4, 7, 300).unwrap();
    assert_eq!(text(42, 4, 7, 300).unwrap(), long);
    assert!(long.starts_with(&text(42, 4, 7, 299).unwrap()));
    assert_ne!(text(43, 4, 7, 300).unwrap(), long);
}
