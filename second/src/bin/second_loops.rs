//! Shows a loop of links in the bundle on standard input; with --explain each of
//! its links in words besides.

use std::env;
use std::io::{self, Read, Write};

use second::loops::loop_text;

fn main() -> io::Result<()> {
    let explained = env::args().nth(1).as_deref() == Some("--explain");
    let mut bundle = Vec::new();
    io::stdin().lock().read_to_end(&mut bundle)?;
    io::stdout().lock().write_all(loop_text(&bundle, explained).as_bytes())
}
