//! Plays a schedule with resets from standard input to standard output.

use std::io;

fn main() -> io::Result<()> {
    model::recover::recover(io::stdin().lock(), io::stdout().lock())
}
