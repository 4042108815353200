//! Reads what `replay` reads and prints the whole record at the end.

use separate::{dump, replay};
use std::io::{self, Write};

fn main() {
    let module = replay::final_record(io::stdin().lock());
    // What cannot be written (a closed pipe) ends the program quietly.
    let _ = io::stdout()
        .lock()
        .write_all(dump::text(&module).as_bytes());
}
