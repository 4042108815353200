//! Table and questions for waiting times from standard input, answer lines to
//! standard output.

use std::io;

fn main() {
    // What cannot be written (a closed pipe) ends the program quietly.
    let _ = separate::questions::waits(io::stdin().lock(), io::stdout().lock());
}
