//! The journal as text: what is listed, and what lines append.

use model::journal::Tail;
use model::listing::{list, write};

fn listed(journal: &[u8]) -> String {
    let mut output = Vec::new();
    list(journal, &mut output).unwrap();
    String::from_utf8(output).unwrap()
}

/// The blocks written of these lines, and what was told.
fn written(tail: Tail, lines: &str) -> (Vec<u8>, String) {
    let (mut journal, mut told) = (Vec::new(), Vec::new());
    let put = |block: &[u8]| {
        journal.extend(block);
        Ok(())
    };
    write(tail, lines.as_bytes(), put, &mut told).unwrap();
    (journal, String::from_utf8(told).unwrap())
}

#[test]
fn lines_come_back() {
    let lines = "7 0 1 6162\n8 15 4294967295 -\n9 1 2 00ff\n";
    let (journal, told) = written(Tail::FRESH, lines);
    assert_eq!(told, "");
    assert_eq!(listed(&journal), format!("{lines}blocks 1 messages 3\n"));
    // The last line may lack its line feed.
    assert_eq!(written(Tail::FRESH, lines.trim_end()).0, journal);
    assert_eq!(listed(&journal[..511]), "refused 21\n");
    assert_eq!(listed(&[]), "blocks 0 messages 0\n");
    assert_eq!(written(Tail::FRESH, ""), (vec![], String::new()));
}

/// A refused message is left out, and those behind it are looked at.
#[test]
fn refused_lines() {
    let tail = Tail {
        last: 6,
        free: false,
    };
    let long = "00".repeat(241);
    for wrong in [
        "6 1 1 -",
        "8 1 1 -",
        "0 1 1 -",
        "7 16 1 -",
        "7 256 1 -",
        "7 4294967295 1 -",
        "7 1 0 -",
        &format!("7 1 1 {long}"),
    ] {
        let (journal, told) = written(tail, &format!("{wrong}\n7 1 1 -\n"));
        assert_eq!(told, "refused 21\n", "{wrong}");
        assert_eq!(journal, written(tail, "7 1 1 -\n").0);
    }
}

/// A line of another form ends the input; what is in hand is written.
#[test]
fn bad_lines() {
    for bad in [
        "",
        "8",
        "8 1 1",
        "8 1 1 - ",
        "8 1 1 - -",
        "8  1 1 -",
        "8 1 1 0",
        "8 1 1 AB",
        "+8 1 1 -",
        "4294967296 1 1 -",
        &format!("8 1 1 {}", "00".repeat(500)),
    ] {
        let lines = format!("7 1 1 -\n{bad}\n8 1 1 -\n");
        let (journal, told) = written(Tail::FRESH, &lines);
        assert_eq!(told, "bad line\n", "{bad}");
        assert_eq!(listed(&journal), "7 1 1 -\nblocks 1 messages 1\n");
    }
}
