//! A whole line driven from standard input: a command a line, a reply line each.

use second::line::call::Driver;
use std::io;

fn main() -> io::Result<()> {
    Driver::default().serve(io::stdin().lock(), io::stdout().lock())
}
