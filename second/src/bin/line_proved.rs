//! A whole line of the proved library's server and stations, driven as `line_second` is.

use second::ffi::ends::{Server, Station};
use second::line::call::Driver;
use std::io;

fn main() -> io::Result<()> {
    Driver::<Server, Station>::new().serve(io::stdin().lock(), io::stdout().lock())
}
