//! The stored schedules: their files, what they reach, and the answers that
//! were written by hand.

use model::journal::{BLOCK, found};
use model::play::opening;
use schedules::coverage::{self, Counts, REACHABLE};
use schedules::{all, inspected, journals, loads, played, store};
use std::collections::BTreeSet;

#[test]
fn files_are_up_to_date() {
    assert_eq!(store::check().unwrap(), Vec::<String>::new());
}

#[test]
fn answers_are_the_documents() {
    for (number, schedule) in all().iter().enumerate() {
        if let Some(expected) = &schedule.expected {
            let played = String::from_utf8(schedule.played()).unwrap();
            assert_eq!(&played, expected, "{number:03}: {}", schedule.shows);
        }
    }
}

#[test]
fn everything_is_reached() {
    let mut counts = Counts::new();
    for schedule in all() {
        coverage::count(&schedule.text, &mut counts);
    }
    let reached: BTreeSet<&str> = counts.keys().copied().collect();
    assert_eq!(reached, BTreeSet::from(REACHABLE));
}

#[test]
fn names_and_sizes() {
    let schedules = all();
    assert!(schedules.len() <= 1000);
    let data: usize = schedules.iter().map(|schedule| schedule.text.len()).sum();
    let outputs: usize = schedules
        .iter()
        .map(|schedule| schedule.played().len())
        .sum();
    assert!(data + outputs < 1_200_000, "{data} + {outputs}");
}

/// Each schedule is there for a reason of its own.
#[test]
fn none_is_there_twice() {
    let schedules = all();
    let texts: BTreeSet<&[u8]> = schedules.iter().map(|s| s.text.as_slice()).collect();
    assert_eq!(texts.len(), schedules.len());
    let shows: BTreeSet<&str> = schedules.iter().map(|s| s.shows.as_str()).collect();
    assert_eq!(shows.len(), schedules.len());
    assert_eq!(store::name(7), "007");
}

/// Without a resilience degree in the first line it is 0, and all is as with
/// a 0 there.
#[test]
fn no_degree_is_degree_0() {
    let mut without = 0;
    for schedule in all() {
        let text = &schedule.text;
        let end = text.iter().position(|&byte| byte == b'\n');
        let (first, rest) = text.split_at(end.unwrap_or(text.len()));
        let fields = first.split(|&byte| byte == b' ').count();
        // A first line may not get longer than 1,000 characters.
        if opening(first).is_some() && fields == 3 && first.len() < 999 {
            let written = [first, b" 0", rest].concat();
            assert_eq!(played(&written), schedule.played(), "{}", schedule.shows);
            assert_eq!(inspected(&written), inspected(text), "{}", schedule.shows);
            without += 1;
        }
    }
    assert!(without > 200, "{without}");
}

/// No line of a load is of another form; the long ones end with `no space`.
#[test]
fn loads_with_and_without_no_space() {
    let ends = |what: &str| {
        let with = |text: Vec<u8>| String::from_utf8(text).unwrap().contains(what);
        let loads = loads::schedules();
        loads.iter().filter(|load| with(load.played())).count()
    };
    assert_eq!(loads::schedules().len(), 20);
    assert_eq!((ends("bad line"), ends("no space")), (0, 4));
}

/// How many blocks each stored journal has, and how many blocks and messages
/// stand before a wrong one.
#[test]
fn journals_are_what_they_show() {
    let shown = [
        ("whole", 8, 8, 99),
        ("torn", 5, 3, 6),
        ("largest", 3, 2, 80),
        ("uneven", 1, 0, 0),
        ("empty", 0, 0, 0),
        ("units", 2, 2, 13),
        ("mixed", 2, 2, 9),
        ("misplaced", 2, 1, 1),
        ("full", 11, 11, 512),
        ("many", 11, 11, 513),
    ];
    let journals = journals::all().map(|journal| {
        let found = found(&journal.bytes);
        let blocks = journal.bytes.len().div_ceil(BLOCK);
        (journal.name, blocks, found.blocks, found.messages)
    });
    assert_eq!(journals, shown);
}

/// What is printed behind the first listings, by hand but for the longest
/// payloads: the listings of journals of both marks, plans, and rewriting.
#[test]
fn plans_and_rewriting() {
    let printed = String::from_utf8(journals::printed()).unwrap();
    let short: String = printed.replace(&"5a".repeat(237), "Z");
    let short = short.replace(&"a5".repeat(237), "A");
    let (_, behind) = short
        .split_once("refused 21\nblocks 0 messages 0\n")
        .unwrap();
    let full = (0..512).map(|unit| format!("{} -\n", 2 * unit));
    let rows = "0 -\n1 61\n3 Z\n7 646f6f72\n256 -\n65535 6c617374\n";
    let kept = "41 9 4294967293 03ffff6c617374\n\
                44 12 4294967293 030007646f6f72\n\
                47 15 4294967293 030000\n\
                49 1 4294967294 030100\n\
                51 3 4294967295 030003Z\n\
                52 4 4294967294 03000161\n";
    let expected = [
        "40 8 4294967294 030007626f617264\n\
         41 9 4294967293 03ffff6c617374\n\
         42 10 4294967295 0301007368656c66\n\
         43 11 4294967294 0300\n\
         44 12 4294967293 030007646f6f72\n\
         45 13 4294967295 030003A\n\
         46 14 4294967294 03\n\
         47 15 4294967293 030000\n\
         48 0 4294967295 02000701\n\
         49 1 4294967294 030100\n\
         50 2 4294967293 -\n\
         51 3 4294967295 030003Z\n\
         52 4 4294967294 03000161\n\
         blocks 2 messages 13\n",
        kept,
        "90 10 4294967295 030007647261776572\n\
         91 11 4294967294 03000262\n\
         92 12 4294967293 09\n\
         blocks 2 messages 9\n",
        "5 5 4294967293 03000178\nblocks 1 messages 1\n",
        rows,
        "0 -\n1 61\n2 62\n3 Z\n7 647261776572\n256 -\n65535 6c617374\n",
        "1 78\n",
        "refused 21\n",
        &full.collect::<String>(),
        "refused 22\n",
        "blocks 1 messages 6\n",
        kept,
        "blocks 1 messages 6\n",
        rows,
        "refused 22\nrefused 21\n",
        "refused 21\nrefused 21\nblocks 2 messages 8\n",
        kept,
        "1000 1 1 030001626f617264\n1001 15 4294967295 030004\nblocks 2 messages 8\n",
        "blocks 1 messages 7\n",
        &kept[..kept.len() - "52 4 4294967294 03000161\n".len()],
        "1000 1 1 030001626f617264\n1001 15 4294967295 030004\nblocks 1 messages 7\n",
    ];
    assert_eq!(behind, expected.concat());
}
