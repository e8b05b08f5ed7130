//! `inspect`: what is left at the end of a schedule, to the byte.

use model::play::inspect;

fn inspected(input: &str) -> String {
    let mut output = Vec::new();
    inspect(input.as_bytes(), &mut output).unwrap();
    String::from_utf8(output).unwrap()
}

const HEADING: &str = "terminal taken row submitted waiting repeats\n";
const LISTS: &str = "terminal place holder job\n";

#[test]
fn a_line_a_terminal() {
    let left = inspected("N 2 7\nS 1 6162\nQ 0\nQ 0\nM 1 1\nT 1\nS 1 -\nM 1 0\nT 1\n");
    assert_eq!(left, format!("{HEADING}0 0 1 0 0 0\n1 1 1 2 1 1\n{LISTS}"));
    assert_eq!(inspected("N 1 7"), format!("{HEADING}0 0 0 0 0 0\n{LISTS}"));
}

/// The row has offered messages too, which are not taken before they are
/// accepted.
#[test]
fn offered_messages() {
    let left = inspected("N 2 7 1\nS 0 61\nQ 0\nM 1 1\nT 1\n");
    assert_eq!(left, format!("{HEADING}0 0 0 1 1 0\n1 0 1 0 0 0\n{LISTS}"));
    assert_eq!(inspected("N 2 7 2\nS 0 61\n"), "refused 24\n");
}

/// A line of another form ends the events; what they left is printed.
#[test]
fn events_that_end_early() {
    let left = inspected("N 1 7\nS 0 61\nX\nQ 0\nM 1 0\nT 0\n");
    assert_eq!(left, format!("{HEADING}0 0 0 1 1 0\n{LISTS}"));
    let space = "P\n".repeat(250);
    let left = inspected(&format!("N 1 7\n{space}S 0 61\n"));
    assert_eq!(left, format!("{HEADING}0 0 0 0 0 0\n{LISTS}"));
}

/// A first line that opens no group prints what `play` prints of it.
#[test]
fn no_group() {
    assert_eq!(inspected(""), "bad line\n");
    assert_eq!(inspected("\nS 0 61\n"), "bad line\n");
    assert_eq!(inspected("N 17 7\nS 0 61\n"), "refused 18\n");
}

/// Events in which the submissions are numbered one by one, two packets each;
/// terminal i takes the first `taken[i]`. Who submits again has taken its own
/// before, else that would only be queued.
fn taken(submissions: &[(usize, &str)], taken: &[usize]) -> String {
    let mut text = format!("N {} 7\n", taken.len());
    let mut packet = 0;
    for (at, (member, hex)) in submissions.iter().enumerate() {
        text += &format!("S {member} {hex}\nQ {packet}\n");
        for (terminal, &most) in taken.iter().enumerate() {
            if at < most {
                text += &format!("M {} {terminal}\nT {terminal}\n", packet + 1);
            }
        }
        packet += 2;
    }
    text
}

/// What stands behind the heading of the lists.
fn lists(input: &str) -> String {
    let left = inspected(input);
    let (_, lists) = left.split_once(LISTS).unwrap();
    lists.into()
}

/// A line a job: places in turn, who holds it, and its bytes.
#[test]
fn work_lists() {
    let submissions = [
        (0, "01626f617264"),
        (1, "017368656c66"),
        (1, "02"),
        (0, "01"),
        (1, "0100ff"),
    ];
    assert_eq!(
        lists(&taken(&submissions, &[4, 5])),
        "0 0 1 626f617264\n0 1 waiting 7368656c66\n0 2 waiting -\n\
         1 0 1 626f617264\n1 1 waiting 7368656c66\n1 2 waiting -\n1 3 waiting 00ff\n"
    );
    // Terminal 1 finishes its job and has the next, terminal 0 the one behind;
    // an empty list has no line.
    let more = [&submissions[..], &[(1, "02"), (0, "02")]].concat();
    assert_eq!(
        lists(&taken(&more, &[7, 6, 0, 1])),
        "0 0 1 7368656c66\n0 1 0 -\n0 2 waiting 00ff\n\
         1 0 1 7368656c66\n1 1 waiting -\n1 2 waiting 00ff\n\
         3 0 waiting 626f617264\n"
    );
}

/// What is held and not taken is no part of a list, nor is what is not taken
/// again.
#[test]
fn only_takes_feed() {
    let held = "N 1 7\nS 0 0161\nQ 0\nM 1 0\n";
    assert_eq!(lists(held), "");
    assert_eq!(
        lists(&format!("{held}T 0\nT 0\nM 1 0\nT 0\n")),
        "0 0 waiting 61\n"
    );
    assert_eq!(lists(&format!("{held}T 1\nT 0\nX\n")), "0 0 waiting 61\n");
}

/// What is not for the list, or finds it full, is taken and changes nothing.
#[test]
fn refused_feeds() {
    let submissions = [
        (0, "-"),
        (0, "0261"),
        (0, "03"),
        (0, "0161"),
        (0, "0202"),
        (0, "61"),
    ];
    let left = inspected(&taken(&submissions, &[6]));
    assert_eq!(
        left,
        format!("{HEADING}0 6 6 6 0 0\n{LISTS}0 0 waiting 61\n")
    );

    let jobs: Vec<String> = (0..66).map(|at| format!("01{at:02x}")).collect();
    let mut adds: Vec<(usize, &str)> = jobs.iter().map(|job| (0, &job[..])).collect();
    let waiting = |from: usize, to: usize| -> String {
        let line = |at: usize| format!("0 {} waiting {at:02x}\n", at - from);
        (from..to).map(line).collect()
    };
    let left = inspected(&taken(&adds, &[66]));
    let full = waiting(0, 64);
    assert_eq!(left, format!("{HEADING}0 66 66 66 0 0\n{LISTS}{full}"));
    // The 65th is refused; two fetches later there is room for one.
    adds.splice(65..65, [(0, "02"), (0, "02")]);
    let given = waiting(1, 64).replacen("waiting", "0", 1);
    assert_eq!(lists(&taken(&adds, &[67])), given);
    assert_eq!(
        lists(&taken(&adds, &[68])),
        format!("{given}0 63 waiting 41\n")
    );
}

/// The longest job, and a holder of two digits.
#[test]
fn the_longest_line() {
    let job = "5a".repeat(239);
    let add = format!("01{job}");
    let mut counts = [0; 16];
    counts[2] = 2;
    assert_eq!(
        lists(&taken(&[(9, &add), (15, "02")], &counts)),
        format!("2 0 15 {job}\n")
    );
}

/// `play` says nothing of lists.
#[test]
fn play_prints_no_list() {
    let mut output = Vec::new();
    model::play::play("N 1 7\nS 0 0161\nQ 0\nM 1 0\nT 0\n".as_bytes(), &mut output).unwrap();
    assert_eq!(
        String::from_utf8(output).unwrap(),
        "1 sent 0\n2 numbered 1 1\n3 kept\n4 took 1 0 1 0161 last\ntop 1 floor 0 taken 1\n"
    );
}
