//! Table and event lines from standard input, answer lines to standard output.

use std::io;

fn main() {
    // What cannot be written (a closed pipe) ends the program quietly.
    let _ = separate::replay::replay(io::stdin().lock(), io::stdout().lock());
}
