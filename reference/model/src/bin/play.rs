//! Plays a schedule from standard input to standard output.

use std::io;

fn main() -> io::Result<()> {
    model::play::play(io::stdin().lock(), io::stdout().lock())
}
