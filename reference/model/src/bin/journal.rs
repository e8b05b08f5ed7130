//! Lists the journal in a file, appends the messages on standard input to it,
//! prints its plan, or rewrites it to another file.

use model::listing;
use std::fs::{self, File};
use std::process::ExitCode;
use std::{env, io};

fn main() -> io::Result<ExitCode> {
    let words: Vec<String> = env::args().skip(1).collect();
    let words: Vec<&str> = words.iter().map(String::as_str).collect();
    match words[..] {
        ["list", path] => listing::list(&fs::read(path)?, io::stdout().lock())?,
        ["append", path] => {
            let mut options = File::options();
            options.read(true).write(true).create(true);
            let mut file = options.truncate(false).open(path)?;
            listing::append(&mut file, io::stdin().lock(), io::stdout().lock())?;
        }
        ["plan", path] => listing::plan(&fs::read(path)?, io::stdout().lock())?,
        ["rewrite", path, new] => {
            listing::rewrite(&fs::read(path)?, new.as_ref(), io::stdout().lock())?;
        }
        _ => {
            eprintln!("usage: journal list FILE | append FILE | plan FILE | rewrite FILE NEW");
            return Ok(ExitCode::FAILURE);
        }
    }
    Ok(ExitCode::SUCCESS)
}
