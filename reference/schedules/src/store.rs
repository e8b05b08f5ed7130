//! The files of the stored schedules: each schedule is a file of
//! `crates/schedules/data`, named by its number, and `crates/schedules/stdout`
//! has what they print, one behind the other; `crates/reset_schedules` has those
//! with resets, for `recover`. `crates/play` and `crates/recover` have a document's
//! own schedule, `crates/inspect` one that leaves each column something and
//! work lists of several jobs, and `crates/load` the words of a load.
//! `crates/journal_tool` has the stored journals and what it is asked to do with
//! them.

use crate::{Schedule, all, inspected, journals, played, resets};
use model::{load, play};
use std::fmt::Write as _;
use std::path::{Path, PathBuf};
use std::{fs, io};

/// Where the schedules with resets are.
const RESETS: &str = "crates/reset_schedules";

/// What a program prints of its input.
type Prints = fn(&[u8]) -> Vec<u8>;

/// The root of the repository.
fn root() -> PathBuf {
    Path::new(env!("CARGO_MANIFEST_DIR")).join("../..")
}

/// A schedule's file name: three digits.
pub fn name(number: usize) -> String {
    format!("{number:03}")
}

/// Every file that is kept, and what it has to hold. The inputs of `play`,
/// `inspect`, `recover` and `load` are given and not kept; without such a crate there is
/// nothing to hold.
fn files(schedules: &[Schedule]) -> io::Result<Vec<(PathBuf, Vec<u8>)>> {
    let root = root();
    let crates = root.join("crates");
    let data = crates.join("schedules/data");
    let mut files: Vec<(PathBuf, Vec<u8>)> = schedules
        .iter()
        .enumerate()
        .map(|(number, schedule)| (data.join(name(number)), schedule.text.clone()))
        .collect();
    let outputs: Vec<u8> = schedules.iter().flat_map(Schedule::played).collect();
    files.push((crates.join("schedules/stdout"), outputs));
    let table = table(schedules, "crates/schedules");
    files.push((root.join("reference/schedules/TABLE.md"), table));
    files.extend(reset_files());
    let programs: [(&str, Prints); 3] = [
        ("play", played),
        ("inspect", inspected),
        ("recover", resets::recovered),
    ];
    for (name, prints) in programs {
        let program = crates.join(name);
        if program.exists() {
            let output = prints(&fs::read(program.join("stdin"))?);
            files.push((program.join("stdout"), output));
        }
    }
    let program = crates.join("load");
    if program.exists() {
        let output = loaded(&fs::read(program.join("args"))?);
        files.push((program.join("stdout"), output));
    }
    let program = crates.join("journal_tool");
    for journal in journals::all() {
        files.push((program.join("data").join(journal.name), journal.bytes));
    }
    let commands = journals::COMMANDS.map(|words| words.join("\n"));
    let words = commands.join("\nthen\n") + "\n";
    files.push((program.join("args"), words.into_bytes()));
    files.push((program.join("stdin"), journals::APPENDED.into()));
    files.push((program.join("stdout"), journals::printed()));
    Ok(files)
}

/// The files of the schedules with resets.
fn reset_files() -> Vec<(PathBuf, Vec<u8>)> {
    let folder = root().join(RESETS);
    let schedules = resets::schedules();
    let texts = schedules.iter().map(|schedule| &schedule.text);
    let outputs = texts.clone().flat_map(|text| resets::recovered(text));
    let outputs = (folder.join("stdout"), outputs.collect());
    let table_file = root().join("reference/schedules/resets/TABLE.md");
    let table = (table_file, table(&schedules, RESETS));
    let data = folder.join("data");
    let texts = texts.enumerate();
    texts
        .map(|(number, text)| (data.join(name(number)), text.clone()))
        .chain([outputs, table])
        .collect()
}

/// What `load` prints of its words, one to a line.
fn loaded(words: &[u8]) -> Vec<u8> {
    let numbers: Option<Vec<u32>> = words
        .trim_ascii()
        .split(|&byte| byte == b'\n')
        .map(play::number)
        .collect();
    let Some(&[seed, n, group, events]) = numbers.as_deref() else {
        panic!("four numbers");
    };
    load::text(seed, n, group, events).expect("an allowed opening")
}

/// What each schedule shows, as a table.
fn table(schedules: &[Schedule], folder: &str) -> Vec<u8> {
    let mut table = format!(
        "# Stored schedules\n\n\
         What each file of `{folder}/data` shows. Written by `schedules write`.\n\n\
         | File | Lines | Shows |\n|---|---|---|\n",
    );
    for (number, schedule) in schedules.iter().enumerate() {
        let lines = schedule.text.split_inclusive(|&byte| byte == b'\n').count();
        let shows = schedule.shows.replace('`', "back quote");
        writeln!(table, "| `{}` | {lines} | {shows} |", name(number)).expect("writing to memory");
    }
    table.into_bytes()
}

/// Writes every file; how many schedules there are.
pub fn write() -> io::Result<usize> {
    let schedules = all();
    for folder in ["crates/schedules", RESETS] {
        let data = root().join(folder).join("data");
        if data.exists() {
            fs::remove_dir_all(&data)?;
        }
        fs::create_dir_all(&data)?;
    }
    fs::create_dir_all(root().join("crates/journal_tool/data"))?;
    for (path, bytes) in files(&schedules)? {
        fs::write(path, bytes)?;
    }
    Ok(schedules.len())
}

/// What is wrong with the files; empty if nothing is.
///
/// The schedules are read from their files, so that the outputs belong to
/// what is stored; then the files are compared with what is written today.
pub fn check() -> io::Result<Vec<String>> {
    let schedules = all();
    let mut wrong = Vec::new();
    for (path, bytes) in files(&schedules)? {
        let named = path.strip_prefix(root()).unwrap_or(&path).display();
        match fs::read(&path) {
            Ok(stored) if stored == bytes => (),
            Ok(_) => wrong.push(format!("{named}: not what the reference writes")),
            Err(error) => wrong.push(format!("{named}: {error}")),
        }
    }
    let resets = resets::schedules().len();
    let folders: [(&str, usize, Prints); 2] = [
        ("crates/schedules", schedules.len(), played),
        (RESETS, resets, resets::recovered),
    ];
    for (folder, count, prints) in folders {
        let data = root().join(folder).join("data");
        let mut stored: Vec<PathBuf> = fs::read_dir(data)?
            .map(|entry| Ok(entry?.path()))
            .collect::<io::Result<_>>()?;
        stored.sort();
        if stored.len() != count {
            wrong.push(format!("{} files in {folder}/data", stored.len()));
        }
        let mut outputs = Vec::new();
        for path in &stored {
            outputs.extend(prints(&fs::read(path)?));
        }
        if fs::read(root().join(folder).join("stdout"))? != outputs {
            wrong.push(format!(
                "{folder}/stdout: not the outputs of the stored schedules"
            ));
        }
    }
    Ok(wrong)
}
