//! The work list, sentence by sentence.

use model::Refusal;
use model::jobs::{ADD, FETCH, Fed, GIVEN, Job, List, UNUSED, WAITING};
use model::limits::{JOB, JOBS, PAYLOAD};

const LIST_FULL: Fed = Fed::Refused(Refusal::ListFull);
const NOT_FOR_LIST: Fed = Fed::Refused(Refusal::NotForList);
const UNSOUND: Fed = Fed::Refused(Refusal::Unsound);

fn add(list: &mut List, job: &[u8]) -> Fed {
    list.feed(0, &[&[ADD], job].concat())
}

fn fetch(list: &mut List, member: u8) -> Fed {
    list.feed(member, &[FETCH])
}

/// Each job as its holder, `None` for waiting, and its bytes.
fn jobs(list: &List) -> Vec<(Option<u8>, &[u8])> {
    list.jobs()
        .iter()
        .map(|job| ((job.state == GIVEN).then_some(job.member), job.as_slice()))
        .collect()
}

/// A list with a job given to member 3, one that waits, and one given to 5.
fn three() -> List {
    let mut list = List::empty();
    for job in [b"a", b"b", b"c"] {
        assert_eq!(add(&mut list, job), Fed::Added);
    }
    assert_eq!(fetch(&mut list, 3), Fed::Given(0));
    list.records[2].state = GIVEN;
    list.records[2].member = 5;
    assert!(list.is_sound());
    list
}

fn full() -> List {
    let mut list = List::empty();
    for job in 0..JOBS as u8 {
        assert_eq!(add(&mut list, &[job]), Fed::Added);
    }
    list
}

#[test]
fn a_saw_and_two_adds() {
    let mut list = List::empty();
    assert_eq!(fetch(&mut list, 1), Fed::None);
    assert_eq!(add(&mut list, b"ab"), Fed::Added);
    assert_eq!(add(&mut list, b""), Fed::Added);
    assert_eq!(fetch(&mut list, 1), Fed::Given(0));
    assert_eq!(jobs(&list), [(Some(1), &b"ab"[..]), (None, b"")]);
    // The saw fetches again: its board is finished, and its place closes up.
    assert_eq!(fetch(&mut list, 1), Fed::Given(0));
    assert_eq!(jobs(&list), [(Some(1), &b""[..])]);
    assert_eq!(fetch(&mut list, 1), Fed::None);
    assert_eq!(list, List::empty());
}

#[test]
fn finishing_below_and_above_the_given_place() {
    // The finished job stands before the one that is given ..
    let mut list = three();
    assert_eq!(fetch(&mut list, 3), Fed::Given(0));
    assert_eq!(jobs(&list), [(Some(3), &b"b"[..]), (Some(5), b"c")]);
    // .. or behind it.
    let mut list = three();
    assert_eq!(fetch(&mut list, 5), Fed::Given(1));
    assert_eq!(jobs(&list), [(Some(3), &b"a"[..]), (Some(5), b"b")]);
    // Nothing waits: the finishing stands.
    assert_eq!(fetch(&mut list, 3), Fed::None);
    assert_eq!(jobs(&list), [(Some(5), &b"b"[..])]);
}

#[test]
fn payloads_of_neither_form() {
    let mut list = three();
    let before = list.clone();
    for payload in [&[][..], &[0], &[3, 1], &[FETCH, 0], &[255, ADD]] {
        assert_eq!(list.feed(0, payload), NOT_FOR_LIST);
    }
    assert_eq!(list.feed(0, &[ADD; PAYLOAD + 1]), NOT_FOR_LIST);
    assert_eq!(list.feed(16, &[ADD]), NOT_FOR_LIST);
    assert_eq!(list.feed(255, &[FETCH]), NOT_FOR_LIST);
    assert_eq!(list, before);
    assert_eq!(list.feed(15, &[ADD; PAYLOAD]), Fed::Added);
    assert_eq!(list.records[3].as_slice(), [ADD; JOB]);
    assert_eq!(list.feed(15, &[FETCH]), Fed::Given(1));
}

#[test]
fn sixty_four_jobs() {
    let mut list = full();
    let before = list.clone();
    assert_eq!(add(&mut list, b""), LIST_FULL);
    // Question 19 comes first.
    assert_eq!(list.feed(16, &[ADD]), NOT_FOR_LIST);
    assert_eq!(list, before);
    // A fetch goes, and a finished job makes room.
    assert_eq!(fetch(&mut list, 7), Fed::Given(0));
    assert_eq!(add(&mut list, b""), LIST_FULL);
    assert_eq!(fetch(&mut list, 7), Fed::Given(0));
    assert_eq!(add(&mut list, b"z"), Fed::Added);
    assert_eq!(list.records[JOBS - 1].as_slice(), b"z");
    assert_eq!(add(&mut list, b""), LIST_FULL);
}

/// Every sentence of soundness, each broken alone.
#[test]
fn unsound_lists_are_refused() {
    type Damage = fn(&mut Vec<Job>);
    let damages: [Damage; 16] = [
        // 64 records
        |records| records.truncate(JOBS - 1),
        |records| records.push(Job::EMPTY),
        |records| records.clear(),
        // used ones first
        |records| records.swap(1, 3),
        |records| records[JOBS - 1].state = WAITING,
        // members to 15
        |records| records[0].member = 16,
        // jobs short of the limit
        |records| records[0].length = JOB as u32 + 1,
        |records| records[1].length = u32::MAX,
        // no member with two jobs
        |records| records[2].member = 3,
        // a record is unused, waiting or given
        |records| records[1].state = 3,
        // zero are all of an unused record ..
        |records| records[3].member = 1,
        |records| records[3].length = 1,
        |records| records[JOBS - 1].bytes[JOB - 1] = 1,
        // .. the bytes behind a job ..
        |records| records[0].bytes[1] = 1,
        |records| records[1].length = 0,
        // .. and a waiting record's member
        |records| records[1].member = 1,
    ];
    for (at, damage) in damages.iter().enumerate() {
        let mut list = three();
        damage(&mut list.records);
        let before = list.clone();
        assert!(!list.is_sound(), "damage {at}");
        for payload in [&[ADD][..], &[FETCH], &[], &[7; PAYLOAD + 1]] {
            for member in [0, 3, 16] {
                assert_eq!(list.feed(member, payload), UNSOUND, "damage {at}");
            }
        }
        assert_eq!(list, before);
    }
}

/// Random feeds: soundness is kept, refusals leave the list, two lists fed
/// alike are equal, and jobs added = waiting + given + finished.
#[test]
fn many_feeds() {
    let mut bits = 1u64;
    let mut below = |limit: u64| {
        bits = bits.wrapping_mul(6_364_136_223_846_793_005).wrapping_add(1);
        (bits >> 33) % limit
    };
    let (mut list, mut other) = (List::empty(), List::empty());
    let (mut added, mut finished) = (0, 0);
    for round in 0..20_000 {
        let member = below(17) as u8;
        // Adds prevail and then fetches, so that the list fills and empties.
        let adds = if round / 500 % 2 == 0 { 8 } else { 2 };
        let payload = match below(11) {
            10 => vec![below(5) as u8; below(3) as usize],
            kind if kind < adds => vec![ADD; 1 + below(240) as usize],
            _ => vec![FETCH],
        };
        let before = list.clone();
        let held = before.jobs().iter().any(|job| {
            let Job {
                state,
                member: holder,
                ..
            } = *job;
            state == GIVEN && holder == member
        });
        let answer = list.feed(member, &payload);
        assert_eq!(other.feed(member, &payload), answer);
        match answer {
            Fed::Refused(_) => assert_eq!(list, before),
            Fed::Added => added += 1,
            Fed::Given(_) | Fed::None => finished += usize::from(held),
        }
        assert!(list.is_sound());
        assert_eq!(list, other);
        let count = |state| list.jobs().iter().filter(|job| job.state == state).count();
        assert_eq!(added, count(WAITING) + count(GIVEN) + finished);
        assert_eq!(count(UNUSED), 0);
    }
    assert!(added > 1000 && finished > 1000);
}
