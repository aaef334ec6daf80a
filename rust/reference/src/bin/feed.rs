//! Reads a log from standard input as it comes, and writes a line for each answer.

use std::io;

fn main() -> io::Result<()> {
    reference::runs::feed::run(&mut io::stdin().lock(), &mut io::stdout().lock())
}
