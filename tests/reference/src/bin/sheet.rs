//! Prints what the rules print for the sheet on standard input.

use std::io::{Read, Write};

fn main() {
    let mut sheet = Vec::new();
    std::io::stdin().read_to_end(&mut sheet).unwrap();
    std::io::stdout().write_all(reference::sheet::output(&sheet).as_bytes()).unwrap();
}
