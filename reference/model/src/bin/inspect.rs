//! Plays a schedule from standard input, and prints what is left at its end.

use std::io;

fn main() -> io::Result<()> {
    model::play::inspect(io::stdin().lock(), io::stdout().lock())
}
