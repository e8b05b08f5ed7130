//! `play`: its lines, to the byte.

use model::limits::PAYLOAD;
use model::play::play;
use std::io::{self, Read, Write};
use std::process::{Command, Stdio};

fn played(input: impl AsRef<[u8]>) -> String {
    let mut output = Vec::new();
    play(input.as_ref(), &mut output).unwrap();
    String::from_utf8(output).unwrap()
}

const EXAMPLE: &str = "N 2 7\nS 1 6162\nQ 0\nM 1 1\nT 1\nT 0";
const EXAMPLE_ANSWERS: &str = "1 sent 0\n2 numbered 1 1\n3 kept\n4 took 1 1 1 6162 last\n5 none\n\
                               top 1 floor 0 taken 0 1\n";

#[test]
fn the_example() {
    assert_eq!(played(EXAMPLE), EXAMPLE_ANSWERS);
    assert_eq!(played(EXAMPLE.to_owned() + "\n"), EXAMPLE_ANSWERS);
}

#[test]
fn the_program() {
    let mut program = Command::new(env!("CARGO_BIN_EXE_play"))
        .stdin(Stdio::piped())
        .stdout(Stdio::piped())
        .spawn()
        .unwrap();
    let mut input = program.stdin.take().unwrap();
    input.write_all(EXAMPLE.as_bytes()).unwrap();
    drop(input);
    let output = program.wait_with_output().unwrap();
    assert!(output.status.success());
    assert_eq!(output.stdout, EXAMPLE_ANSWERS.as_bytes());
}

/// Plays pairs of a line and its answer and compares all lines.
fn plays(opening: &str, schedule: &[(String, String)], closing: &str) {
    let mut input = format!("{opening}\n");
    let mut expected = String::new();
    for (number, (line, answer)) in (1..).zip(schedule) {
        input += &format!("{line}\n");
        expected += &format!("{number} {answer}\n");
    }
    expected += &format!("{closing}\n");
    assert_eq!(played(input), expected);
}

fn owned(schedule: &[(&str, &str)]) -> Vec<(String, String)> {
    schedule
        .iter()
        .map(|&(line, answer)| (line.into(), answer.into()))
        .collect()
}

#[test]
fn the_form_of_answers() {
    let schedule = owned(&[
        ("S 0 6162", "sent 0"),
        ("Q 0", "numbered 1 1"),
        ("Q 0", "again 1 2"),
        ("M 1 0", "kept"),
        ("M 1 0", "old"),
        ("T 0", "took 1 0 1 6162 last"),
        ("T 0", "none"),
        ("A 0", "sent 3"),
        ("Q 3", "noted"),
        ("S 0 -", "sent 4"),
        ("R 1", "refused 15"),
        ("Q 4", "numbered 2 5"),
        ("M 5 1", "keptgap 6"),
        ("Q 6", "wanted 1 1"),
        ("C 1", "sent 7"),
        ("M 7 1", "kept"),
        ("T 1", "took 1 0 1 6162 more"),
        ("P", "sent 8"),
        ("M 8 1", "status 9"),
        ("M 8 0", "gap 10"),
        ("Q 10", "wanted 2 2"),
        ("Q 9", "noted"),
        ("Q 0", "old"),
        ("C 1", "refused 17"),
        ("C 0", "refused 17"),
        ("C 4294967295", "refused 17"),
        ("T 1", "took 2 0 2 - last"),
        ("A 1", "sent 11"),
        ("Q 11", "noted"),
        ("R 0", "sent 12"),
        ("M 5 0", "kept"),
        ("T 0", "took 2 0 2 - last"),
        ("R 0", "refused 15"),
        ("Q 12", "again 2 13"),
        ("M 0 0", "refused 8"),
        ("Q 1", "refused 8"),
        ("M 14 0", "absent"),
        ("M 0 2", "absent"),
        ("M 4294967295 99", "absent"),
        ("Q 14", "absent"),
        ("Q 4294967295", "absent"),
        ("S 2 -", "absent"),
        ("T 2", "absent"),
        ("R 99", "absent"),
        ("A 4294967295", "absent"),
        ("S 1 000aff", "sent 14"),
        ("Q 14", "numbered 3 15"),
        ("M 15 0", "kept"),
        ("T 0", "took 3 1 1 000aff last"),
        ("S 0 -", "sent 16"),
        ("S 0 00", "queued 4"),
        ("S 0 -", "queued 5"),
        ("S 0 -", "queued 6"),
        ("S 0 -", "queued 7"),
        ("S 0 -", "refused 14"),
        ("R 0", "sent 17"),
    ]);
    plays("N 2 7", &schedule, "top 3 floor 1 taken 3 2");
}

#[test]
fn a_full_history_and_a_full_window() {
    let mut schedule = Vec::new();
    let mut line = |line: String, answer: String| schedule.push((line, answer));
    for count in 1..=32 {
        let index = 2 * (count - 1);
        line(format!("S 0 {count:02x}"), format!("sent {index}"));
        line(
            format!("Q {index}"),
            format!("numbered {count} {}", index + 1),
        );
        line(format!("M {} 0", index + 1), "kept".into());
        line(
            "T 0".into(),
            format!("took {count} 0 {count} {count:02x} last"),
        );
    }
    line("S 0 33".into(), "sent 64".into());
    line("Q 64".into(), "full 65".into());
    line("M 65 1".into(), "gap 66".into());
    line("Q 66".into(), "wanted 1 8".into());
    line("M 17 1".into(), "beyondgap 67".into());
    for count in 1..=8 {
        line(format!("M {} 1", 2 * count - 1), "kept".into());
    }
    line("M 17 1".into(), "beyond".into());
    line("M 65 1".into(), "status 68".into());
    for count in 1..=8 {
        let more = if count < 8 { "more" } else { "last" };
        line(
            "T 1".into(),
            format!("took {count} 0 {count} {count:02x} {more}"),
        );
    }
    line("A 1".into(), "sent 69".into());
    line("Q 69".into(), "noted".into());
    // Member 1's acknowledgement made room.
    line("Q 64".into(), "numbered 33 70".into());
    plays("N 2 7", &schedule, "top 33 floor 8 taken 32 8");
}

#[test]
fn first_lines_of_another_form() {
    for line in [
        "",
        "\n",
        "\n\n",
        "N",
        "N ",
        "N 1",
        "N 1 ",
        "N 1 7 ",
        "N 1 7 0 ",
        "N 1 7  0",
        "N 1 7 0 0",
        "N 1 7 x",
        "N 1 7 -",
        "N 1 7 -0",
        "N 1 7 +0",
        "N 1 7 0x0",
        "N 1 7 4294967296",
        "N 17 7 x",
        " N 1 7",
        "N  1 7",
        "N 1  7",
        "n 1 7",
        "NN 1 7",
        "N1 7",
        "N -1 7",
        "N +1 7",
        "N 1 -7",
        "N x 7",
        "N 1 x",
        "N 1 0x7",
        "N 1.0 7",
        "N 1 7\r",
        "N\t1\t7",
        "N 1 4294967296",
        "N 4294967296 7",
        "N 0 4294967296",
        "N 1 99999999999999999999",
        "S 0 -",
        "P",
        "bad line",
        "\u{661} 1 7",
        "N \u{661} 7",
        "N \u{ff11} 7",
    ] {
        assert_eq!(played(line), "bad line\n", "{line:?}");
        let more = format!("{line}\nP\nP\n");
        assert_eq!(played(more), "bad line\n", "{line:?}");
    }
    // A good first line after a bad one does not count.
    assert_eq!(played("\nN 2 7\nP\n"), "bad line\n");
    for bytes in [
        &b"\0"[..],
        b"N\0 1 7",
        b"N 1 7\0",
        b"N 1 \xff",
        b"\xff\xfe",
        b"\x80\n\x80",
    ] {
        assert_eq!(played(bytes), "bad line\n");
    }
    let nines = "9".repeat(40);
    assert_eq!(played(format!("N {nines} 7")), "bad line\n");
    assert_eq!(played(format!("N 1 {nines}")), "bad line\n");
    assert_eq!(played("N".repeat(1_000_000)), "bad line\n");
}

#[test]
fn first_lines_refused() {
    for line in [
        "N 0 7",
        "N 17 7",
        "N 255 7",
        "N 256 7",
        "N 257 7",
        "N 4294967295 4294967295",
    ] {
        assert_eq!(played(line), "refused 18\n");
        assert_eq!(played(format!("{line}\nP\nx\n")), "refused 18\n");
        // Question 18 comes before 24.
        for resilience in ["0", "1", "17", "4294967295"] {
            assert_eq!(played(format!("{line} {resilience}")), "refused 18\n");
        }
    }
    for line in [
        "N 1 7 1",
        "N 1 7 7",
        "N 2 7 2",
        "N 2 7 16",
        "N 2 7 256",
        "N 2 7 257",
        "N 16 7 16",
        "N 16 7 255",
        "N 16 7 4294967295",
    ] {
        assert_eq!(played(line), "refused 24\n");
        assert_eq!(played(format!("{line}\nP\nx\n")), "refused 24\n");
    }
}

#[test]
fn first_lines_accepted() {
    assert_eq!(played("N 1 7"), "top 0 floor 0 taken 0\n");
    assert_eq!(played("N 1 0\n"), "top 0 floor 0 taken 0\n");
    assert_eq!(played("N 0003 007"), "top 0 floor 0 taken 0 0 0\n");
    for resilience in ["0", "1", "2", "002"] {
        let line = format!("N 3 7 {resilience}");
        assert_eq!(played(line), "top 0 floor 0 taken 0 0 0\n");
    }
    assert_eq!(played("N 1 7 0\n"), "top 0 floor 0 taken 0\n");
    let zeros = "0".repeat(40);
    assert_eq!(
        played(format!("N {zeros}1 {zeros}")),
        "top 0 floor 0 taken 0\n"
    );
    let sixteen = format!("top 0 floor 0 taken{}\n", " 0".repeat(16));
    assert_eq!(played("N 16 4294967295"), sixteen);
    assert_eq!(played("N 16 4294967295 15"), sixteen);
}

#[test]
fn events_of_another_form() {
    for line in [
        "",
        " ",
        "S",
        "S ",
        "S 0",
        "S 0 ",
        "S 0 6",
        "S 0 616",
        "S 0 6G",
        "S 0 AB",
        "S 0 aB",
        "S 0 61 62",
        "S 0 --",
        "S 0 -61",
        "S 0 61-",
        "S 0 0x61",
        "S  0 61",
        "S 0  61",
        "S 0 61 ",
        "S - 61",
        "S -1 61",
        "S x 61",
        "S 4294967296 61",
        "s 0 61",
        "S0 61",
        "R",
        "R ",
        "R 0 ",
        "R 0 0",
        "R x",
        "R -",
        "T",
        "T  0",
        " T 0",
        "T 0 1",
        "T +0",
        "T 0x0",
        "T 4294967296",
        "A",
        "A 0 0",
        "A a",
        "P ",
        "P 0",
        " P",
        "PP",
        "p",
        "C",
        "C ",
        "C -1",
        "C x",
        "C 1 1",
        "C 4294967296",
        "M",
        "M 0",
        "M 0 ",
        "M 0 0 0",
        "M x 0",
        "M 0 x",
        "M 0 4294967296",
        "M 4294967296 0",
        "M 0,0",
        "Q",
        "Q ",
        "Q x",
        "Q 0 0",
        "Q 4294967296",
        "Q 0\r",
        "N 1 7",
        "B 0",
        "T 1e0",
        "T 0.0",
        "T 0_0",
        "T\t0",
        "T \u{660}",
        "S 0 \u{e9}",
        "1 sent 0",
    ] {
        let expected = "1 bad line\ntop 0 floor 0 taken 0\n";
        assert_eq!(played(format!("N 1 7\n{line}\n")), expected, "{line:?}");
        assert_eq!(played(format!("N 1 7\n{line}\nP\nP")), expected, "{line:?}");
        if !line.is_empty() {
            assert_eq!(played(format!("N 1 7\n{line}")), expected, "{line:?}");
        }
    }
    let expected = "1 sent 0\n2 bad line\ntop 0 floor 0 taken 0\n";
    for bytes in [
        &b"\0"[..],
        b"P\0",
        b"T 0\0",
        b"T \xb2",
        b"S 0 \xff\xff",
        b"\xf0\x9f",
        b"\n",
    ] {
        let input = [b"N 1 7\nP\n", bytes, b"\nP\n"].concat();
        assert_eq!(played(input), expected);
    }
    let nines = "9".repeat(40);
    for line in [
        "S # 61", "R #", "T #", "A #", "C #", "M # 0", "M 0 #", "Q #",
    ] {
        let input = format!("N 1 7\nP\n{}", line.replace('#', &nines));
        assert_eq!(played(input), expected);
    }
}

#[test]
fn the_end_of_the_input() {
    assert_eq!(played("N 1 7\nP"), "1 sent 0\ntop 0 floor 0 taken 0\n");
    assert_eq!(played("N 1 7\nP\n"), "1 sent 0\ntop 0 floor 0 taken 0\n");
    let blank = "1 sent 0\n2 bad line\ntop 0 floor 0 taken 0\n";
    assert_eq!(played("N 1 7\nP\n\n"), blank);
    assert_eq!(played("N 1 7\r\nP\r\n"), "bad line\n");
}

#[test]
fn only_the_value_of_a_number_counts() {
    let zeros = "0".repeat(40);
    let input = EXAMPLE.replace(" 1", &format!(" {zeros}1"));
    assert_eq!(played(input), EXAMPLE_ANSWERS);
    let input = format!("N 1 7\nT {zeros}4294967295\nC {zeros}4294967295");
    let expected = "1 absent\n2 refused 17\ntop 0 floor 0 taken 0\n";
    assert_eq!(played(input), expected);
}

#[test]
fn lines_of_a_thousand_characters() {
    // 1,000 go and 1,001 do not, with and without a line feed.
    for end in ["", "\n"] {
        let line = format!("T {}{end}", "0".repeat(998));
        let expected = "1 none\ntop 0 floor 0 taken 0\n";
        assert_eq!(played(format!("N 1 7\n{line}")), expected);
        let line = format!("T {}{end}", "0".repeat(999));
        let expected = "1 bad line\ntop 0 floor 0 taken 0\n";
        assert_eq!(played(format!("N 1 7\n{line}")), expected);

        let first = format!("N {}1 7{end}", "0".repeat(995));
        assert_eq!(first.trim_end().len(), 1000);
        assert_eq!(played(first), "top 0 floor 0 taken 0\n");
        let first = format!("N {}1 7{end}", "0".repeat(996));
        assert_eq!(played(first), "bad line\n");
    }
    // What follows a line of 1,000 characters is read in step.
    let line = format!("T {}\nP\n", "0".repeat(998));
    let expected = "1 none\n2 sent 0\n3 none\n4 sent 1\ntop 0 floor 0 taken 0\n";
    assert_eq!(played(format!("N 1 7\n{line}{line}")), expected);
}

#[test]
fn payloads_up_to_the_end_of_a_line() {
    let closing = "top 0 floor 0 taken 0\n";
    for (bytes, answer) in [
        (PAYLOAD - 1, "sent 0"),
        (PAYLOAD, "sent 0"),
        (PAYLOAD + 1, "refused 13"),
        (498, "refused 13"),
    ] {
        let input = format!("N 1 7\nS 0 {}", "5a".repeat(bytes));
        assert_eq!(played(input), format!("1 {answer}\n{closing}"));
    }
    // An absent member's payload is not looked at, but its form is.
    let input = format!("N 1 7\nS 1 {}", "5a".repeat(498));
    assert_eq!(played(input), format!("1 absent\n{closing}"));
    let input = format!("N 1 7\nS 1 {}", "5a".repeat(499));
    assert_eq!(played(input), format!("1 bad line\n{closing}"));
    assert_eq!(played("N 1 7\nS 1 5"), format!("1 bad line\n{closing}"));
}

#[test]
fn a_line_of_a_million_characters() {
    for text in ["0", "S 0 ", "\0", "\u{ff}", " "] {
        let input = format!("N 1 7\nP\nT {}\nP\n", text.repeat(1_000_000 / text.len()));
        let expected = "1 sent 0\n2 bad line\ntop 0 floor 0 taken 0\n";
        assert_eq!(played(input), expected);
    }
    // A line without end is not read to its end.
    let mut output = Vec::new();
    play(b"N 1 7\nP\nT ".chain(io::repeat(b'0')), &mut output).unwrap();
    assert_eq!(output, b"1 sent 0\n2 bad line\ntop 0 floor 0 taken 0\n");
    let mut output = Vec::new();
    play(io::repeat(b'N'), &mut output).unwrap();
    assert_eq!(output, b"bad line\n");
}

#[test]
fn no_space_after_200_packets() {
    let opening = format!("N 1 7\n{}", "P\n".repeat(200));
    let mut answers: String = (1..=200).map(|i| format!("{i} sent {}\n", i - 1)).collect();
    let closing = "top 0 floor 0 taken 0\n";
    assert_eq!(played(&opening), format!("{answers}{closing}"));
    // Whatever the event is, also one that writes nothing.
    for line in [
        "P", "T 0", "T 99", "M 0 0", "M 999 99", "C 1", "S 0 61", "R 0",
    ] {
        let expected = format!("{answers}201 no space\n{closing}");
        assert_eq!(played(format!("{opening}{line}")), expected);
        assert_eq!(played(format!("{opening}{line}\nT 0\nx\n")), expected);
    }
    for line in ["x", "", "P ", "T 4294967296"] {
        let expected = format!("{answers}201 bad line\n{closing}");
        assert_eq!(played(format!("{opening}{line}\nP\n")), expected);
    }
    // Events that write nothing do not count.
    let opening = opening.replacen("N 1 7\n", &format!("N 1 7\n{}", "T 0\n".repeat(500)), 1);
    answers = (1..=500).map(|i| format!("{i} none\n")).collect();
    for i in 501..=700 {
        answers += &format!("{i} sent {}\n", i - 501);
    }
    let expected = format!("{answers}701 no space\n{closing}");
    assert_eq!(played(format!("{opening}T 0\n")), expected);
}

/// The same lines over and over, in pieces of an odd length.
struct Repeated {
    text: &'static [u8],
    left: usize,
}

impl Read for Repeated {
    fn read(&mut self, buffer: &mut [u8]) -> io::Result<usize> {
        let length = buffer.len().min(self.left).min(1021);
        let offset = self.left % self.text.len();
        let start = (self.text.len() - offset) % self.text.len();
        for (at, byte) in buffer[..length].iter_mut().enumerate() {
            *byte = self.text[(start + at) % self.text.len()];
        }
        self.left -= length;
        Ok(length)
    }
}

/// Counts lines and keeps the last bytes only.
struct Tail {
    lines: usize,
    last: Vec<u8>,
}

impl Write for Tail {
    fn write(&mut self, bytes: &[u8]) -> io::Result<usize> {
        self.lines += bytes.iter().filter(|&&byte| byte == b'\n').count();
        self.last.extend(bytes);
        let cut = self.last.len().saturating_sub(100);
        self.last.drain(..cut);
        Ok(bytes.len())
    }

    fn flush(&mut self) -> io::Result<()> {
        Ok(())
    }
}

#[test]
fn a_million_events() {
    let text = b"T 1\nQ 7\nR 0\nC 9\n";
    let events = 1_000_000;
    let input = Repeated {
        text,
        left: text.len() * events / 4,
    };
    let mut output = Tail {
        lines: 0,
        last: Vec::new(),
    };
    play(b"N 2 7\n".chain(input), &mut output).unwrap();
    assert_eq!(output.lines, events + 1);
    let last = String::from_utf8(output.last).unwrap();
    let expected = "\n999997 none\n999998 absent\n999999 refused 15\n1000000 refused 17\n\
                    top 0 floor 0 taken 0 0\n";
    assert!(last.ends_with(expected), "{last}");
}

/// One byte at a time.
struct Slow<'a>(&'a [u8]);

impl Read for Slow<'_> {
    fn read(&mut self, buffer: &mut [u8]) -> io::Result<usize> {
        let length = buffer.len().min(1);
        self.0.read(&mut buffer[..length])
    }
}

#[test]
fn input_in_single_bytes() {
    let mut output = Vec::new();
    play(Slow(EXAMPLE.as_bytes()), &mut output).unwrap();
    assert_eq!(output, EXAMPLE_ANSWERS.as_bytes());
}

/// Lines by chance, mostly broken: `play` ends with its last line, and
/// every other line begins with its number.
#[test]
fn anything_can_be_read() {
    let mut random: u64 = 0x1234_5678_9abc_def1;
    let mut below = |bound: usize| {
        random ^= random << 13;
        random ^= random >> 7;
        random ^= random << 17;
        (random >> 11) as usize % bound
    };
    for _ in 0..3000 {
        let mut input = b"N 3 7\n".to_vec();
        for _ in 0..below(60) {
            let kinds = [
                format!("S {} {:02x}", below(4), below(256)),
                format!("M {} {}", below(12), below(4)),
                format!("Q {}", below(12)),
                format!("T {}", below(3)),
                format!("A {}", below(3)),
                format!("R {}", below(3)),
                format!("C {}", below(5)),
                "P".into(),
            ];
            input.extend(kinds[below(kinds.len())].bytes());
            input.push(b'\n');
        }
        if below(2) == 0 {
            let at = below(input.len());
            input[at] = below(256) as u8;
        }
        let output = played(&input);
        let lines: Vec<&str> = output.split_terminator('\n').collect();
        let (last, answers) = lines.split_last().unwrap();
        if ["bad line", "refused 18", "refused 24"].contains(last) {
            assert!(answers.is_empty());
            continue;
        }
        assert!(last.starts_with("top "));
        for (number, answer) in (1..).zip(answers) {
            assert!(answer.starts_with(&format!("{number} ")));
        }
    }
}
