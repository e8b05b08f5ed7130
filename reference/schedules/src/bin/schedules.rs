//! Writes the stored schedules and their outputs, or checks them.

use schedules::coverage::{self, Counts, REACHABLE};
use schedules::{all, store};
use std::process::ExitCode;
use std::{env, io};

fn main() -> io::Result<ExitCode> {
    let command = env::args().nth(1);
    match command.as_deref() {
        Some("write") => println!("{} schedules written", store::write()?),
        Some("check") => {
            let wrong = store::check()?;
            for line in &wrong {
                println!("{line}");
            }
            println!("{} schedules, {} wrong files", all().len(), wrong.len());
            if !wrong.is_empty() {
                return Ok(ExitCode::FAILURE);
            }
        }
        Some("coverage") => {
            let mut counts = Counts::new();
            for schedule in all() {
                coverage::count(&schedule.text, &mut counts);
            }
            for what in REACHABLE {
                println!("{:8} {what}", counts.get(what).unwrap_or(&0));
            }
        }
        _ => {
            eprintln!("usage: schedules write | check | coverage");
            return Ok(ExitCode::FAILURE);
        }
    }
    Ok(ExitCode::SUCCESS)
}
