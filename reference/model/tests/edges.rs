//! The starred examples of the specification, in its order, and the
//! tempting wrong turns.

mod common;

use common::*;
use model::Answer::{self, *};
use model::member::Member;
use model::packet::{self, Header};
use model::place::Place;
use model::sequencer::Sequencer;

/// A sequencer that numbered `top` messages of member 0.
fn numbered(n: u32, top: u32) -> Sequencer {
    let mut sequencer = Sequencer::fresh(n, GROUP).unwrap();
    for count in 1..=top {
        let packet = request(0, 0, count, &[count as u8]);
        assert_eq!(hand(&mut sequencer, &packet).0, Numbered(count));
    }
    sequencer
}

/// A member that took the numbers 1 to t and holds `distances` above t.
fn holding(t: u32, distances: impl IntoIterator<Item = u32>) -> Member {
    let mut member = Member::fresh(3, 1, GROUP).unwrap();
    for number in 1..=t {
        assert_eq!(
            give(&mut member, &broadcast(0, number, number, 0, b"x")).0,
            Kept
        );
        take(&mut member);
    }
    for distance in distances {
        let number = t + distance;
        give(&mut member, &broadcast(0, number, number, 0, b"x"));
    }
    assert_eq!(member.taken, t);
    member
}

fn empty(sequencer: &Sequencer) -> bool {
    sequencer.top == sequencer.floor && sequencer.history == [Place::EMPTY; 32]
}

#[test]
fn floor_is_the_smallest_acknowledgement() {
    let mut sequencer = numbered(6, 9);
    let mut floors = Vec::new();
    for (member, taken) in (0..).zip([8, 7, 9, 8, 6, 8]) {
        assert_eq!(
            hand(&mut sequencer, &status(member, taken)),
            (Noted, vec![])
        );
        floors.push(sequencer.floor);
    }
    assert_eq!(floors, [0, 0, 0, 0, 0, 6]);
    assert_eq!(sequencer.acknowledged[..6], [8, 7, 9, 8, 6, 8]);
    for number in 1..=9 {
        let place = &sequencer.history[number];
        assert_eq!(*place == Place::EMPTY, number <= 6);
    }
}

#[test]
fn payload_of_240_goes_and_241_is_refused() {
    let member = Member::fresh(2, 1, GROUP).unwrap();
    let call = |state: &mut Member, out: &mut [u8]| state.submit(&[5; 241], out);
    assert_eq!(refused(&member, call), 13);
    for length in [239, 240] {
        let payload = vec![5; length];
        let answer = submit(&mut member.clone(), &payload);
        assert_eq!(answer, (Sent, request(1, 0, 1, &payload)));
    }
    let header = Header {
        kind: 1,
        member: 1,
        group: GROUP,
        a: 0,
        b: 1,
        c: 0,
    };
    let mut out = [0; 264];
    assert_eq!(packet::write(&header, &[5; 239], &mut out), Ok(259));
    assert_eq!(packet::write(&header, &[5; 240], &mut out), Ok(260));
    let refusal = packet::write(&header, &[5; 241], &mut out).unwrap_err();
    assert_eq!(refusal.number(), 13);
}

#[test]
fn an_output_of_260_bytes_is_enough_and_259_are_not() {
    let member = Member::fresh(2, 1, GROUP).unwrap();
    for payload in [&[][..], &[5; 240]] {
        let call = |state: &mut Member, out: &mut [u8]| state.submit(payload, out);
        assert_eq!(refused_lent(&member, 259, call), 2);
        let (answer, length) = call(&mut member.clone(), &mut [0; 260]);
        assert_eq!((answer, length), (Sent, 20 + payload.len()));
    }
}

#[test]
fn packets_of_19_and_261_bytes_are_refused_and_20_goes_on() {
    let sequencer = numbered(2, 1);
    let member = holding(0, []);
    for length in [19, 261] {
        let packet = vec![4; length];
        assert_eq!(packet::read(&packet).unwrap_err().number(), 3);
        assert_eq!(hand_refused(&sequencer, &packet), 3);
        assert_eq!(give_refused(&member, &packet), 3);
    }
    let longest = request(1, 0, 1, &[5; 240]);
    assert_eq!(longest.len(), 260);
    assert_eq!(hand(&mut sequencer.clone(), &longest).0, Numbered(2));
    assert_eq!(status(0, 0).len(), 20);
    assert_eq!(hand(&mut sequencer.clone(), &status(0, 0)).0, Noted);
    assert_eq!(poll(0, 0).len(), 20);
    assert_eq!(give(&mut member.clone(), &poll(0, 0)).0, Status);
    // 20 bytes of another kind pass question 3 and fail a later one.
    assert_eq!(hand_refused(&sequencer, &[0; 20]), 4);
    assert_eq!(give_refused(&member, &[0; 20]), 4);
}

#[test]
fn both_bytes_of_the_length_are_read() {
    for size in [20, 260, 261] {
        let mut bytes = packet(1, 1, [0, 1, 0], &vec![5; size - 20]);
        for length in [240u16, 255, 256, 257, 65_535] {
            bytes[2..4].copy_from_slice(&length.to_be_bytes());
            let answer = packet::read(&bytes).map_err(|refusal| refusal.number());
            match (size, length) {
                (261, _) => assert_eq!(answer, Err(3)),
                (260, 240) => assert_eq!(answer.map(|header| header.kind), Ok(1)),
                _ => assert_eq!(answer, Err(5)),
            }
        }
    }
}

#[test]
fn the_members_window() {
    for t in [0, 1, 5, 7, 8, 13] {
        let mut member = holding(t, 1..=7);
        let eighth = broadcast(2, t + 8, 1, 0, b"8");
        assert_eq!(give(&mut member, &eighth), (Kept, vec![]));
        let mut expected = member.clone();
        expected.accepted = t + 9;
        let ninth = broadcast(2, t + 9, 2, 0, b"9");
        assert_eq!(give(&mut member, &ninth), (Beyond, vec![]));
        assert_eq!(member, expected);

        let mut member = holding(t, []);
        assert_eq!(
            give(&mut member.clone(), &eighth),
            (KeptGap, gap(1, t, t + 1, t + 7))
        );
        let mut expected = member.clone();
        expected.accepted = t + 9;
        assert_eq!(
            give(&mut member, &ninth),
            (BeyondGap, gap(1, t, t + 1, t + 8))
        );
        assert_eq!(member, expected);
    }
}

#[test]
fn the_32nd_above_floor_is_numbered_and_the_next_is_full() {
    let mut sequencer = numbered(2, 31);
    let (answer, bytes) = hand(&mut sequencer, &request(1, 0, 1, b"32"));
    assert_eq!(
        (answer, bytes),
        (Numbered(32), broadcast(1, 32, 1, 0, b"32"))
    );
    let before = sequencer.clone();
    let next = request(1, 0, 2, b"33");
    assert_eq!(hand(&mut sequencer, &next), (Full, poll(32, 0)));
    assert_eq!(sequencer, before);
    // Nothing but the noting changes.
    let next = request(1, 5, 2, b"33");
    assert_eq!(hand(&mut sequencer, &next), (Full, poll(32, 0)));
    let mut expected = before;
    expected.acknowledged[1] = 5;
    assert_eq!(sequencer, expected);
}

#[test]
fn a_request_may_free_its_own_place() {
    let mut sequencer = numbered(1, 32);
    let (answer, bytes) = hand(&mut sequencer, &request(0, 1, 33, b"new"));
    assert_eq!(answer, Numbered(33));
    assert_eq!(bytes, broadcast(0, 33, 33, 1, b"new"));
    assert_eq!((sequencer.floor, sequencer.top), (1, 33));
    // 33 lies where 1 lay.
    assert_eq!(sequencer.history[1].payload.as_slice(), b"new");
}

#[test]
fn an_acknowledgement_of_top_goes_and_above_is_refused() {
    let sequencer = numbered(2, 4);
    for packet in [status(1, 4), request(1, 4, 1, b"")] {
        hand(&mut sequencer.clone(), &packet);
    }
    assert_eq!(
        hand(&mut sequencer.clone(), &gap(1, 3, 4, 4)).0,
        Wanted(4, 4)
    );
    for packet in [status(1, 5), request(1, 5, 1, b""), gap(1, 5, 6, 6)] {
        assert_eq!(hand_refused(&sequencer, &packet), 10);
    }
}

#[test]
fn an_empty_payload_is_a_message() {
    let mut sequencer = numbered(2, 0);
    let mut member = Member::fresh(2, 1, GROUP).unwrap();
    let (_, bytes) = submit(&mut member, b"");
    assert_eq!(member.waiting, 1);
    let (answer, bytes) = hand(&mut sequencer, &bytes);
    assert_eq!((answer, bytes.len()), (Numbered(1), 20));
    assert_eq!(give(&mut member, &bytes).0, Kept);
    assert_eq!(take(&mut member), (took(1, 1, 1, false), vec![]));
    assert_eq!(member.waiting, 0);
}

#[test]
fn a_group_of_one() {
    let mut sequencer = numbered(1, 0);
    let mut member = Member::fresh(1, 0, GROUP).unwrap();
    let (_, bytes) = submit(&mut member, b"me");
    let (answer, bytes) = hand(&mut sequencer, &bytes);
    assert_eq!(answer, Numbered(1));
    assert_eq!(give(&mut member, &bytes), (Kept, vec![]));
    assert_eq!(take(&mut member), (took(1, 0, 1, false), b"me".to_vec()));
    assert!(!empty(&sequencer));
    let (_, bytes) = accepted(&mut member, |state, out| state.status(out));
    assert_eq!(hand(&mut sequencer, &bytes), (Noted, vec![]));
    assert!(empty(&sequencer));
}

#[test]
fn the_example_packet() {
    let mut member = Member::fresh(2, 1, 7).unwrap();
    let hex = "01 01 00 02 00 00 00 07 00 00 00 00 00 00 00 01 00 00 00 00 61 62";
    let bytes: Vec<u8> = hex
        .split(' ')
        .map(|byte| u8::from_str_radix(byte, 16).unwrap())
        .collect();
    assert_eq!(submit(&mut member, b"ab"), (Sent, bytes));
}

fn took(number: u32, originator: u8, count: u32, more: bool) -> Answer {
    Took {
        number,
        originator,
        count,
        more,
    }
}

#[test]
fn a_repeated_request_is_not_numbered_anew() {
    let mut sequencer = numbered(2, 0);
    let packet = request(1, 0, 1, b"once");
    hand(&mut sequencer, &packet);
    for repeats in 1..=3 {
        let expected = (Again(1), broadcast(1, 1, 1, 0, b"once"));
        assert_eq!(hand(&mut sequencer, &packet), expected);
        assert_eq!(
            (sequencer.top, &sequencer.repeats[..2]),
            (1, &[0, repeats][..])
        );
    }
    // Once everyone has it, it is Old.
    hand(&mut sequencer, &status(0, 1));
    hand(&mut sequencer, &status(1, 1));
    assert_eq!(hand(&mut sequencer, &packet), (Old, vec![]));
    assert_eq!((sequencer.top, &sequencer.repeats[..2]), (1, &[0, 4][..]));
    assert_eq!(sequencer.all_repeats(), 4);
}

#[test]
fn trimming_waits_for_the_slowest_member() {
    let mut sequencer = numbered(3, 5);
    hand(&mut sequencer, &status(0, 5));
    hand(&mut sequencer, &status(1, 4));
    assert_eq!(sequencer.floor, 0);
    assert!((1..=5).all(|number| sequencer.history[number] != Place::EMPTY));
    hand(&mut sequencer, &status(2, 2));
    assert_eq!(sequencer.floor, 2);
}

#[test]
fn a_late_packet_lowers_nothing() {
    let mut sequencer = numbered(2, 5);
    hand(&mut sequencer, &status(0, 4));
    hand(&mut sequencer, &status(1, 3));
    let before = sequencer.clone();
    for late in [status(0, 2), status(1, 0), status(0, 4)] {
        hand(&mut sequencer, &late);
        assert_eq!(sequencer, before);
    }
    // Of a late gap only what is still kept is wanted.
    assert_eq!(hand(&mut sequencer, &gap(1, 0, 1, 5)).0, Wanted(4, 5));
    assert_eq!(hand(&mut sequencer, &gap(1, 0, 1, 3)).0, Noted);
    assert_eq!(sequencer, before);
}

#[test]
fn a_held_message_is_not_handed_out_over_a_gap() {
    let mut member = holding(0, [2, 3]);
    assert_eq!(take(&mut member), (None, vec![]));
    assert_eq!(give(&mut member, &broadcast(0, 1, 1, 0, b"x")).0, Kept);
    let taken: Vec<_> = (0..4).map(|_| take(&mut member).0).collect();
    let x = |number, more| took(number, 0, number, more);
    assert_eq!(taken, [x(1, true), x(2, true), x(3, false), None]);
}
