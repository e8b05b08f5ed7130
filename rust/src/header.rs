//! Holds the crate's and the header's numbers to those of the library's sources.

extern crate std;

use crate::Refusal;
use crate::ffi::code;
use std::collections::BTreeMap;
use std::format;
use std::string::{String, ToString};

const HEADER: &str = include_str!("../../include/warghytes.h");
const GROUP: &str = include_str!("../../crates/group/src/lib.rt");
const PACKET: &str = include_str!("../../crates/packet/src/lib.rt");
const JOURNAL: &str = include_str!("../../crates/journal/src/lib.rt");
const ENDS: &str = include_str!("../../crates/ends/src/lib.rt");
const EMBEDDING: &str = include_str!("../../crates/embedding/src/lib.rt");

/// The header's constants.
fn header() -> BTreeMap<&'static str, &'static str> {
    let lines = HEADER.lines().filter_map(|line| {
        let line = line.trim().trim_start_matches("#define ");
        let (name, value) = line.split_once(' ')?;
        let name = name.strip_prefix("WARGHYTES_")?;
        let value = value.trim_start_matches("= ");
        let end = value.find([',', ' ']).unwrap_or(value.len());
        value[..end].parse::<u64>().ok()?;
        Some((name, &value[..end]))
    });
    lines.collect()
}

/// The constants of a source: `pub const NAME: TYPE = VALUE;`.
fn constants(source: &str) -> BTreeMap<&str, &str> {
    let lines = source.lines().filter_map(|line| {
        let line = line.trim().strip_prefix("pub const ")?.strip_suffix(';')?;
        let (name, value) = line.split_once(": ")?;
        Some((name, value.split_once(" = ")?.1))
    });
    lines.collect()
}

/// `UnsoundState` as `UNSOUND_STATE`.
fn upper(name: &str) -> String {
    let mut upper = String::new();
    for c in name.chars() {
        if c.is_uppercase() && !upper.is_empty() {
            upper.push('_');
        }
        upper.push(c.to_ascii_uppercase());
    }
    upper
}

#[test]
fn refusals() {
    let header = header();
    let (_, behind) = GROUP.split_once("pub enum Refusal {").unwrap();
    let (variants, _) = behind.split_once('}').unwrap();
    let source: BTreeMap<&str, &str> = variants
        .lines()
        .filter_map(|line| line.trim().strip_suffix(',')?.split_once(" = "))
        .collect();
    assert_eq!(source.len(), Refusal::ALL.len());
    for refusal in Refusal::ALL {
        let name = format!("{refusal:?}");
        let number = refusal.number().to_string();
        assert_eq!(source[name.as_str()], number, "{name}");
        assert_eq!(header[upper(&name).as_str()], number, "{name}");
    }
}

#[test]
fn words() {
    let header = header();
    let (ends, embedding) = (constants(ENDS), constants(EMBEDDING));
    let words: BTreeMap<&str, &str> = ends.into_iter().chain(embedding).collect();
    for (name, code) in constants(include_str!("ffi.rs")) {
        assert_eq!(words.get(name), Some(&code), "{name}");
        assert_eq!(header.get(name), Some(&code), "{name}");
    }
    assert_eq!(words.len(), constants(include_str!("ffi.rs")).len());
    for (name, code) in constants(EMBEDDING) {
        if let Some(other) = constants(ENDS).get(name) {
            assert_eq!(code, *other, "{name}");
        }
    }
    assert_eq!(header["WORDS"], crate::WORDS.to_string());
    assert_eq!(header["OLD"], code::OLD.to_string());
}

#[test]
fn kinds() {
    let (header, source) = (header(), constants(PACKET));
    for (name, kind) in [
        ("REQUEST", crate::Fields::REQUEST),
        ("BROADCAST", crate::Fields::BROADCAST),
        ("GAP", crate::Fields::GAP),
        ("STATUS", crate::Fields::STATUS),
        ("POLL", crate::Fields::POLL),
        ("OFFER", crate::Fields::OFFER),
        ("CONFIRM", crate::Fields::CONFIRM),
        ("ACCEPT", crate::Fields::ACCEPT),
        ("INVITATION", crate::Fields::INVITATION),
        ("REPLY", crate::Fields::REPLY),
        ("RESULT", crate::Fields::RESULT),
    ] {
        assert_eq!(source[name], kind.to_string(), "{name}");
        assert_eq!(
            header[format!("KIND_{name}").as_str()],
            kind.to_string(),
            "{name}"
        );
    }
}

#[test]
fn limits() {
    let (header, group) = (header(), constants(GROUP));
    for (name, limit, source) in [
        ("MEMBERS", crate::MEMBERS, "16"),
        ("PAYLOAD", crate::PAYLOAD, "240"),
        ("HEADER", crate::HEADER, "20"),
        ("PACKET", crate::PACKET, "Group::HEADER + Group::PAYLOAD"),
        ("PLACES", crate::PLACES, "32"),
        ("HELD", crate::HELD, "8"),
        ("WAITING", crate::WAITING, "5"),
        ("JOBS", crate::JOBS, "64"),
        ("JOB", crate::JOB, "Group::PAYLOAD - 1"),
    ] {
        assert_eq!(group[name], source, "{name}");
        assert_eq!(header[name], limit.to_string(), "{name}");
    }
    assert_eq!(constants(JOURNAL)["SIZE"], crate::BLOCK.to_string());
    assert_eq!(header["BLOCK"], crate::BLOCK.to_string());
    assert_eq!(header["PLAN_MOST"], crate::PLAN_MOST.to_string());
    assert_eq!(header["REWRITE_MOST"], crate::REWRITE_MOST.to_string());
}

/// Every size that the header states is stated of the crate's struct.
#[test]
fn sizes() {
    let mut seen = 0;
    for line in HEADER
        .lines()
        .filter_map(|line| line.strip_prefix("WARGHYTES_SAME("))
    {
        let (name, size) = line
            .trim_end_matches(");")
            .split_once(", struct warghytes_")
            .unwrap();
        let size = size.split_once(", ").unwrap().1;
        let name = name[..1].to_uppercase() + &name[1..];
        let stated = format!("assert!(size_of::<{name}>() == {size});");
        assert!(include_str!("ffi.rs").contains(&stated), "{stated}");
        seen += 1;
    }
    assert_eq!(seen, 10);
}
