//! Lines of another form, first lines and events, and the lines beside them
//! that are still of the right form.

use crate::Schedule;

const FRESH: &str = "top 0 floor 0 taken 0 0";

/// A schedule and what it prints, both whole.
fn whole(shows: &str, text: impl Into<Vec<u8>>, expected: &str) -> Schedule {
    Schedule {
        shows: shows.into(),
        text: text.into(),
        expected: Some(expected.into()),
    }
}

/// A first line, and two events that must not be played.
fn first(shows: &str, line: impl AsRef<[u8]>, expected: &str) -> Schedule {
    let text = [line.as_ref(), b"\nP\nP\n"].concat();
    whole(&format!("first line: {shows}"), text, expected)
}

/// An event, a line of another form, and an event that must not be played.
fn bad(shows: &str, line: impl AsRef<[u8]>) -> Schedule {
    let text = [b"N 2 7\nP\n", line.as_ref(), b"\nP\n"].concat();
    let expected = format!("1 sent 0\n2 bad line\n{FRESH}\n");
    whole(&format!("bad line: {shows}"), text, &expected)
}

/// A line of a good form between two polls.
fn good(shows: &str, line: impl AsRef<[u8]>, answer: &str) -> Schedule {
    let text = [b"N 2 7\nP\n", line.as_ref(), b"\nP\n"].concat();
    let expected = format!("1 sent 0\n2 {answer}\n3 sent 1\n{FRESH}\n");
    whole(&format!("good line: {shows}"), text, &expected)
}

fn zeros(count: usize) -> String {
    "0".repeat(count)
}

/// The schedules about the form of lines.
pub fn schedules() -> Vec<Schedule> {
    let mut schedules = openings();
    schedules.extend(ends());
    schedules.extend(events());
    schedules.extend(numbers());
    schedules.extend(lengths());
    schedules
}

fn openings() -> Vec<Schedule> {
    let mut schedules = vec![
        whole("empty input", "", "bad line\n"),
        whole("input of one line feed", "\n", "bad line\n"),
        whole("first line alone", "N 2 7\n", &format!("{FRESH}\n")),
        whole(
            "first line alone, no line feed",
            "N 2 7",
            &format!("{FRESH}\n"),
        ),
    ];
    let nines = "9".repeat(40);
    for (shows, line) in [
        ("empty, a good one behind it", "\nN 2 7"),
        ("the letter alone", "N"),
        ("one number", "N 1"),
        ("one number and a space", "N 1 "),
        ("a trailing space", "N 2 7 "),
        ("four numbers", "N 2 7 1 7"),
        ("a leading space", " N 2 7"),
        ("two spaces, then n", "N  2 7"),
        ("two spaces, then the group", "N 2  7"),
        ("lower case", "n 2 7"),
        ("no space behind the letter", "N2 7"),
        ("an event", "P"),
        ("a plus sign", "N +2 7"),
        ("a minus sign", "N 2 -7"),
        ("a word for a number", "N two 7"),
        ("a hexadecimal group", "N 2 0x7"),
        ("tabs", "N\t2\t7"),
        ("a carriage return", "N 2 7\r"),
        ("a group over the largest", "N 2 4294967296"),
        ("n over the largest", "N 4294967296 7"),
        (
            "n not allowed and a group over the largest",
            "N 0 4294967296",
        ),
    ] {
        schedules.push(first(shows, line, "bad line\n"));
    }
    schedules.push(first("forty digits", format!("N 2 {nines}"), "bad line\n"));
    schedules.push(first("a zero byte", b"N 2 7\0", "bad line\n"));
    schedules.push(first("a byte over 127", b"N 2 \xb7", "bad line\n"));
    for n in ["0", "17", "255", "256", "257", "258", "4294967295"] {
        let line = format!("N {n} 7");
        schedules.push(first(&format!("n = {n}"), line, "refused 18\n"));
    }
    let two = format!("1 sent 0\n2 sent 1\n{FRESH}\n");
    for (shows, line) in [
        ("group 0", "N 2 0"),
        ("the largest group", "N 2 4294967295"),
        ("leading zeros", "N 002 000000000007"),
    ] {
        schedules.push(first(shows, line, &two));
    }
    let line = format!("N {}2 {}7", zeros(40), zeros(40));
    schedules.push(first("over forty digits, most of them zeros", line, &two));
    let sixteen = format!(
        "1 sent 0\n2 sent 1\ntop 0 floor 0 taken{}\n",
        " 0".repeat(16)
    );
    schedules.push(first("n = 16", "N 16 7", &sixteen));
    let one = "1 sent 0\n2 sent 1\ntop 0 floor 0 taken 0\n";
    schedules.push(first("n = 1", "N 1 7", one));
    schedules
}

fn ends() -> Vec<Schedule> {
    let sent = format!("1 sent 0\n{FRESH}\n");
    let bad = format!("1 sent 0\n2 bad line\n{FRESH}\n");
    vec![
        whole("no line feed at the end", "N 2 7\nP", &sent),
        whole("an empty line at the end", "N 2 7\nP\n\n", &bad),
        whole("bad line at the end, no line feed", "N 2 7\nP\nPP", &bad),
        whole("a space at the end, no line feed", "N 2 7\nP\n ", &bad),
        whole(
            "lines end in carriage return, line feed",
            "N 2 7\r\nP\r\n",
            "bad line\n",
        ),
        whole(
            "lines end in carriage returns alone",
            "N 2 7\rP\r",
            "bad line\n",
        ),
    ]
}

fn events() -> Vec<Schedule> {
    let mut schedules: Vec<Schedule> = [
        ("empty", ""),
        ("one space", " "),
        ("an unknown letter", "B 0"),
        ("a second opening", "N 2 7"),
        ("a digit for the letter", "1 0"),
        ("a line of the output", "1 sent 0"),
        ("lower-case s", "s 0 61"),
        ("lower-case r", "r 0"),
        ("lower-case t", "t 0"),
        ("lower-case a", "a 0"),
        ("lower-case p", "p"),
        ("lower-case c", "c 1"),
        ("lower-case m", "m 0 0"),
        ("lower-case q", "q 0"),
        ("two letters", "PP"),
        ("no space behind the letter", "T0"),
        ("leading space", " T 0"),
        ("trailing space", "T 0 "),
        ("two spaces", "T  0"),
        ("trailing space of a poll", "P "),
        ("two spaces before the payload", "S 0  61"),
        ("two spaces before the member", "M 0  0"),
        ("trailing space behind a payload", "S 0 61 "),
        ("submit without fields", "S"),
        ("submit without a payload", "S 0"),
        ("submit with an empty payload field", "S 0 "),
        ("submit with three fields", "S 0 61 62"),
        ("repeat without a member", "R"),
        ("repeat with two", "R 0 0"),
        ("take without a member", "T"),
        ("take with an empty member", "T "),
        ("take with two", "T 0 1"),
        ("status without a member", "A"),
        ("status with two", "A 0 1"),
        ("poll with a field", "P 0"),
        ("copy without a number", "C"),
        ("copy with two", "C 1 1"),
        ("packet without a member", "M 0"),
        ("packet with two members", "M 0 0 1"),
        ("hand without a packet", "Q"),
        ("hand with a member", "Q 0 0"),
        ("upper-case hex", "S 0 AB"),
        ("one upper-case digit", "S 0 aB"),
        ("odd number of hex digits", "S 0 616"),
        ("one hex digit", "S 0 6"),
        ("a letter behind f", "S 0 6g"),
        ("hex with a prefix", "S 0 0x61"),
        ("two dashes", "S 0 --"),
        ("a dash behind hex", "S 0 61-"),
        ("a dash for the member", "S - 61"),
        ("hex of an absent member", "S 9 6"),
        ("hex beside digits: a colon", "S 0 :0"),
        ("hex beside digits: a slash", "S 0 0/"),
        ("hex beside letters: a back quote", "S 0 `0"),
    ]
    .map(|(shows, line)| bad(shows, line))
    .into();
    schedules.push(bad("tab", "T\t0"));
    schedules.push(bad("carriage return", "T 0\r"));
    schedules.push(bad("carriage return behind a payload", "S 0 61\r"));
    schedules.push(bad("vertical tab for a space", "T\x0b0"));
    schedules.push(bad("zero byte alone", b"\0"));
    schedules.push(bad("zero byte at the end", b"T 0\0"));
    schedules.push(bad("zero byte for a space", b"T\x000"));
    schedules.push(bad("zero byte in a payload", b"S 0 61\x0062"));
    schedules.push(bad("byte 255 alone", b"\xff"));
    schedules.push(bad("letter T with the highest bit", b"\xd4 0"));
    schedules.push(bad("digit with the highest bit", b"T \xb0"));
    schedules.push(bad("hex with the highest bit", b"S 0 \xb6\xb1"));
    schedules.push(bad("space with the highest bit", b"T\xa00"));
    schedules.push(bad("a digit of another script", "T \u{660}"));
    schedules
}

fn numbers() -> Vec<Schedule> {
    let nines = "9".repeat(40);
    let mut schedules = Vec::new();
    for (what, line) in [
        ("submit's member", "S # 61"),
        ("repeat's member", "R #"),
        ("take's member", "T #"),
        ("status's member", "A #"),
        ("copied number", "C #"),
        ("packet for a member", "M # 0"),
        ("member for a packet", "M 0 #"),
        ("packet for the sequencer", "Q #"),
    ] {
        let over = line.replace('#', "4294967296");
        schedules.push(bad(&format!("{what} over the largest"), over));
        let forty = line.replace('#', &nines);
        schedules.push(bad(&format!("{what} of forty digits"), forty));
    }
    for (shows, line) in [
        ("2 to the 64 and a little", "T 18446744073709551617"),
        ("a plus sign", "T +0"),
        ("a minus sign", "C -1"),
        ("hexadecimal", "Q 0x0"),
        ("a point", "T 0.0"),
        ("a comma", "M 0,0"),
        ("an exponent", "C 1e0"),
        ("an underscore", "C 1_0"),
        ("a letter behind digits", "C 1a"),
        ("a colon, the byte behind 9", "C :"),
        ("a slash, the byte before 0", "C /"),
    ] {
        schedules.push(bad(&format!("number with {shows}"), line));
    }
    for (shows, line, answer) in [
        ("leading zeros", "T 0000".into(), "none"),
        ("forty zeros", format!("T {}", zeros(40)), "none"),
        ("the largest", "C 4294967295".into(), "refused 17"),
        (
            "the largest behind forty zeros",
            format!("C {}4294967295", zeros(40)),
            "refused 17",
        ),
        (
            "largest packet and member",
            "M 4294967295 4294967295".into(),
            "absent",
        ),
        ("member 256", "T 256".into(), "absent"),
        ("member 65536", "T 65536".into(), "absent"),
        ("packet 256", "Q 256".into(), "absent"),
    ] {
        schedules.push(good(shows, line, answer));
    }
    schedules
}

fn lengths() -> Vec<Schedule> {
    let five = "5a".repeat(498);
    vec![
        good("1,000 characters", format!("T {}", zeros(998)), "none"),
        bad("1,001 characters", format!("T {}", zeros(999))),
        good(
            "a payload up to 1,000 characters",
            format!("S 0 {five}"),
            "refused 13",
        ),
        bad("a payload of 1,002 characters", format!("S 0 {five}5a")),
        good(
            "an absent member's payload of 498 bytes",
            format!("S 9 {five}"),
            "absent",
        ),
        whole(
            "1,000 characters, no line feed",
            format!("N 2 7\nT {}", zeros(998)),
            &format!("1 none\n{FRESH}\n"),
        ),
        whole(
            "1,001 characters, no line feed",
            format!("N 2 7\nT {}", zeros(999)),
            &format!("1 bad line\n{FRESH}\n"),
        ),
        first(
            "1,000 characters",
            format!("N {}2 7", zeros(995)),
            &format!("1 sent 0\n2 sent 1\n{FRESH}\n"),
        ),
        first(
            "1,001 characters",
            format!("N {}2 7", zeros(996)),
            "bad line\n",
        ),
        whole(
            "1,000 characters twice, an event between",
            format!("N 2 7\nT {0}\nP\nT {0}\nP\n", zeros(998)),
            &format!("1 none\n2 sent 0\n3 none\n4 sent 1\n{FRESH}\n"),
        ),
        bad("100,000 characters", format!("T {}", zeros(99_998))),
        first("20,000 letters", "N".repeat(20_000), "bad line\n"),
    ]
}
