//! The crash test itself: it passes the reference's program, and fails wrong
//! ones.

use std::os::unix::fs::PermissionsExt;
use std::path::Path;
use std::process::{Command, Output};
use std::{env, fs, process};

const JOURNAL: &str = env!("CARGO_BIN_EXE_journal");

/// Few bytes are torn, so that it is quick.
fn crash(program: &Path) -> Output {
    let mut crash = Command::new(env!("CARGO_BIN_EXE_crash"));
    crash.arg(program).arg("64").output().unwrap()
}

/// A shell script in the program's place: `$1` is the command, `$2` the file.
fn wrong(name: &str, script: &str) -> String {
    let path = env::temp_dir().join(format!("wrong.{name}.{}", process::id()));
    fs::write(&path, format!("#!/bin/sh\n{script}\n")).unwrap();
    fs::set_permissions(&path, fs::Permissions::from_mode(0o700)).unwrap();
    let output = crash(&path);
    fs::remove_file(&path).unwrap();
    assert!(!output.status.success(), "{name}");
    String::from_utf8(output.stdout).unwrap()
}

#[test]
fn the_reference_passes_and_wrong_programs_fail() {
    let output = crash(Path::new(JOURNAL));
    assert!(output.status.success(), "{output:?}");

    let told = wrong("silent", "exit 0");
    assert!(told.contains("0 lines listed and not 1"), "{told}");

    let told = wrong("endless", &format!("{JOURNAL} \"$@\" | sed '$d'"));
    assert!(told.contains("lines listed and not"), "{told}");

    let forgets = format!("[ $1 = list ] || : > \"$2\"\nexec {JOURNAL} \"$@\"");
    let told = wrong("forgetful", &forgets);
    let short = told.contains("the file has") || told.contains("bytes written and not");
    assert!(short, "{told}");

    let in_place = format!("[ $1 = rewrite ] || exec {JOURNAL} \"$@\"\ncat \"$2\" > \"$3\"");
    let told = wrong("in place", &in_place);
    assert!(told.contains("blocks rewritten: the file has"), "{told}");
}
