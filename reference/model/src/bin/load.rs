//! Prints a repeatable load: `load seed n group events`.

use model::Answer;
use model::load::{self, Load};
use model::play::number;
use std::io::{self, BufWriter, Write};

fn main() -> io::Result<()> {
    let words: Vec<String> = std::env::args().skip(1).collect();
    let numbers: Option<Vec<u32>> = words.iter().map(|word| number(word.as_bytes())).collect();
    let Some(&[seed, n, group, events]) = numbers.as_deref() else {
        eprintln!("usage: load seed n group events");
        return Ok(());
    };
    match Load::open(seed, n) {
        Err(refusal) => eprintln!("{}", Answer::Refused(refusal)),
        Ok(load) => {
            let mut output = BufWriter::new(io::stdout().lock());
            load::write(load, group, events, &mut output)?;
            output.flush()?;
        }
    }
    Ok(())
}
