//! Stored journals, and what `journal_tool` prints of them.

use crate::random::Random;
use model::journal::{BLOCK, Message, found};
use model::limits::{LARGEST, MEMBERS, PAYLOAD, UNITS};
use model::listing;
use std::collections::BTreeMap;

/// A journal and its file's name.
pub struct Journal {
    /// What it is called.
    pub name: &'static str,
    /// Its bytes.
    pub bytes: Vec<u8>,
}

/// Every stored journal.
pub fn all() -> [Journal; 10] {
    [
        ("whole", whole()),
        ("torn", torn()),
        ("largest", largest()),
        ("uneven", vec![0; BLOCK - 1]),
        ("empty", Vec::new()),
        ("units", units()),
        ("mixed", mixed()),
        ("misplaced", misplaced()),
        ("full", many(UNITS)),
        ("many", many(UNITS + 1)),
    ]
    .map(|(name, bytes)| Journal { name, bytes })
}

/// What `journal_tool` is asked to do with the stored journals, a command
/// behind the other.
pub const COMMANDS: [&[&str]; 19] = [
    &["list", "whole", "torn", "largest", "uneven", "empty"],
    &["list", "units", "mixed", "misplaced"],
    &["plan", "units"],
    &["plan", "mixed"],
    &["plan", "misplaced"],
    &["plan", "whole"],
    &["plan", "empty"],
    &["plan", "uneven"],
    &["plan", "full"],
    &["plan", "many"],
    &["rewrite", "units", "new"],
    &["list", "new"],
    &["plan", "new"],
    // Refused: what was there before is left.
    &["rewrite", "many", "new"],
    &["rewrite", "uneven", "new"],
    &["append", "new"],
    &["list", "new"],
    &["rewrite", "new", "new"],
    &["list", "new"],
];

/// What is appended behind the rewritten journal: a number that it has, one
/// far above it, one that is not the next, and the next.
pub const APPENDED: &str = "7 0 1 -\n\
                            1000 1 1 030001626f617264\n\
                            1002 1 2 -\n\
                            1001 15 4294967295 030004\n";

/// What the commands print.
pub fn printed() -> Vec<u8> {
    let mut files: BTreeMap<&str, Vec<u8>> = BTreeMap::new();
    for journal in all() {
        files.insert(journal.name, journal.bytes);
    }
    let mut output = Vec::new();
    for command in COMMANDS {
        run(command, &mut files, &mut output).expect("writing to memory");
    }
    output
}

/// Runs a command on files in memory.
fn run<'a>(
    command: &[&'a str],
    files: &mut BTreeMap<&'a str, Vec<u8>>,
    output: &mut Vec<u8>,
) -> std::io::Result<()> {
    match *command {
        ["list", ref names @ ..] => {
            for name in names {
                listing::list(&files[name], &mut *output)?;
            }
        }
        ["plan", name] => listing::plan(&files[name], output)?,
        ["rewrite", name, new] => {
            if let Some(bytes) = listing::rewritten(&files[name], output)? {
                files.insert(new, bytes);
            }
        }
        ["append", name] => {
            let mut journal = files[name].clone();
            behind(&mut journal, APPENDED.as_bytes(), &mut *output);
            output.extend(format!("{}\n", listing::totals(&found(&journal))).bytes());
            files.insert(name, journal);
        }
        _ => unreachable!("no command: {command:?}"),
    }
    Ok(())
}

/// Appends the messages of lines to a journal.
fn behind(journal: &mut Vec<u8>, lines: &[u8], output: impl std::io::Write) {
    let tail = found(journal).tail;
    let put = |block: &[u8]| {
        journal.extend(block);
        Ok(())
    };
    listing::write(tail, lines, put, output).expect("writing to memory");
}

/// Payloads of all sizes: none 72 times, one more than a block holds; the
/// longest; a last one that just fits, and one that is a byte too long. Then a
/// restart behind the short block, and each originator once.
fn whole() -> Vec<u8> {
    let mut sizes = vec![0; 72];
    sizes.extend([PAYLOAD; 5]);
    sizes.extend([PAYLOAD, 120, 117]);
    sizes.extend([PAYLOAD, 120, 118]);
    let first = appended(Vec::new(), 1, &sizes);
    let next = 1 + sizes.len() as u32;
    appended(first, next, &[3; MEMBERS])
}

/// Five blocks; the fourth is torn, so that its sum is wrong.
fn torn() -> Vec<u8> {
    let mut journal = appended(Vec::new(), 1000, &[PAYLOAD; 10]);
    journal[3 * BLOCK + 200..4 * BLOCK].fill(255);
    journal
}

/// The last 80 numbers in two blocks, and a third block behind them: no
/// number may follow the largest.
fn largest() -> Vec<u8> {
    let mut journal = appended(Vec::new(), LARGEST - 79, &[0; 80]);
    journal.extend(appended(Vec::new(), LARGEST, &[1]));
    journal
}

/// The payload that sets a unit.
fn sets(unit: u16, description: &[u8]) -> Vec<u8> {
    [&[3][..], &unit.to_be_bytes(), description].concat()
}

/// Units that are set, set again and set to nothing, out of order; the longest
/// description; payloads that set no unit.
fn units() -> Vec<u8> {
    let payloads = [
        sets(7, b"board"),
        sets(65_535, b"last"),
        sets(256, b"shelf"),
        vec![3, 0],
        sets(7, b"door"),
        sets(3, &[0xa5; PAYLOAD - 3]),
        vec![3],
        sets(0, b""),
        vec![2, 0, 7, 1],
        sets(256, b""),
        Vec::new(),
        sets(3, &[0x5a; PAYLOAD - 3]),
        sets(1, b"a"),
    ];
    taken(Vec::new(), 40, &payloads)
}

/// A rewritten journal, and behind it the writer's blocks, from a higher
/// number on.
fn mixed() -> Vec<u8> {
    let journal = compacted(&units());
    taken(journal, 90, &[sets(7, b"drawer"), sets(2, b"b"), vec![9]])
}

/// The same the other way round: reading stops behind the writer's blocks.
fn misplaced() -> Vec<u8> {
    let first = taken(Vec::new(), 5, &[sets(1, b"x")]);
    [first, compacted(&units())].concat()
}

/// So many units, from the highest down.
fn many(units: usize) -> Vec<u8> {
    let numbers = (0..units as u16).rev();
    let payloads: Vec<_> = numbers.map(|unit| sets(2 * unit, &[])).collect();
    taken(Vec::new(), 1, &payloads)
}

/// The rewritten journal.
fn compacted(journal: &[u8]) -> Vec<u8> {
    let bytes = listing::rewritten(journal, &mut Vec::new());
    bytes.expect("writing to memory").expect("few units")
}

/// A journal, and behind it messages with payloads of these sizes.
fn appended(journal: Vec<u8>, first: u32, sizes: &[usize]) -> Vec<u8> {
    let mut random = Random::seeded(u64::from(first));
    let bytes = |&size| (0..size).map(|_| random.bits() as u8).collect();
    let payloads: Vec<Vec<u8>> = sizes.iter().map(bytes).collect();
    taken(journal, first, &payloads)
}

/// A journal, and behind it messages with these payloads.
fn taken(mut journal: Vec<u8>, first: u32, payloads: &[Vec<u8>]) -> Vec<u8> {
    let mut lines = Vec::new();
    for (number, payload) in (first..=LARGEST).zip(payloads) {
        let message = Message {
            number,
            originator: (number % MEMBERS as u32) as u8,
            count: LARGEST - number % 3,
            payload,
        };
        listing::message_line(&message, &mut lines).expect("writing to memory");
    }
    behind(&mut journal, &lines, std::io::sink());
    journal
}
