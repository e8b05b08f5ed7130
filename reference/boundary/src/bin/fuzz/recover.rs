//! Random schedules with resets through the proved program `recover`, which
//! stands in its crate's folder `out`, and through the reference.

use crate::differing;
use schedules::random::Random;
use schedules::resets;
use std::io::Write;
use std::process::{Command, Stdio};
use std::thread;

/// Seen from the folder that the fuzz runs in.
const PROGRAM: &str = "../crates/recover/out/recover";

/// A schedule of any number of terminals, one of four with a byte changed.
pub fn recovering(seed: u64) -> Option<String> {
    let random = &mut Random::seeded(seed);
    let n = 1 + random.below(16);
    let mut text = resets::random(random.bits(), n).text;
    if random.percent(25) {
        let at = random.below(text.len());
        text[at] = random.one(b"0179 -aCGIMNPQRST\n");
    }
    differing(&text, |text| [proved(text), resets::recovered(text)])
}

/// What the program prints.
fn proved(text: &[u8]) -> Vec<u8> {
    let mut child = Command::new(PROGRAM)
        .stdin(Stdio::piped())
        .stdout(Stdio::piped())
        .spawn()
        .expect("the proved program, by `rt run` in its crate");
    let mut stdin = child.stdin.take().expect("a pipe");
    thread::scope(|scope| {
        // A program that ended early is told by what it printed.
        scope.spawn(move || drop(stdin.write_all(text)));
        child.wait_with_output().expect("its output").stdout
    })
}
