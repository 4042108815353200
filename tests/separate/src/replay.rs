//! The lines of an input, and the replay program: table, then event lines, one
//! answer line per event.

use crate::line::{self, Line, Six};
use crate::machine::Event;
use crate::record::Module;
use crate::table::{self, Refusal};
use std::io::{self, ErrorKind, Read, Write};

/// Bytes of the input and of the output that are held at once.
const BLOCK: usize = 1 << 16;

/// The lines of an input of any length. A line ends at its LF or at the
/// input's end.
pub struct Lines<R> {
    input: R,
    buffer: Vec<u8>,
    /// The unread bytes are `buffer[start..end]`.
    start: usize,
    end: usize,
    finished: bool,
}

impl<R: Read> Lines<R> {
    pub fn new(input: R) -> Lines<R> {
        Lines {
            input,
            buffer: vec![0; BLOCK],
            start: 0,
            end: 0,
            finished: false,
        }
    }

    fn unread(&self) -> &[u8] {
        &self.buffer[self.start..self.end]
    }

    /// True if the next line cannot be judged without reading on.
    pub fn needs_input(&self) -> bool {
        !self.finished && self.end - self.start < line::LENGTH && !self.unread().contains(&b'\n')
    }

    /// The next line, `None` at the end of the input.
    pub fn next_line(&mut self) -> Option<Line> {
        while self.needs_input() {
            self.fill();
        }
        if self.start == self.end {
            return None;
        }
        let length = self.unread().len().min(line::LENGTH);
        // No good field holds an LF, so a good line has none but its last.
        let line = line::read(&self.unread()[..length]);
        match line {
            Line::Six(_) => self.start += line::LENGTH,
            Line::Bad => self.skip_line(),
        }
        Some(line)
    }

    /// Passes over a bad line: it runs to its own LF, however long it is.
    fn skip_line(&mut self) {
        loop {
            match self.unread().iter().position(|&byte| byte == b'\n') {
                Some(place) => {
                    self.start += place + 1;
                    return;
                }
                None => self.start = self.end,
            }
            if self.finished {
                return;
            }
            self.fill();
        }
    }

    /// Moves the unread bytes to the front and reads more behind them. What
    /// cannot be read is the end of the input.
    fn fill(&mut self) {
        self.buffer.copy_within(self.start..self.end, 0);
        self.end -= self.start;
        self.start = 0;
        match self.input.read(&mut self.buffer[self.end..]) {
            Ok(0) => self.finished = true,
            Ok(count) => self.end += count,
            Err(error) if error.kind() == ErrorKind::Interrupted => {}
            Err(_) => self.finished = true,
        }
    }
}

/// Answer lines gathered into a block.
struct Block<W> {
    output: W,
    bytes: Vec<u8>,
    at: usize,
}

impl<W: Write> Block<W> {
    fn new(output: W) -> Block<W> {
        Block {
            output,
            bytes: vec![0; BLOCK],
            at: 0,
        }
    }

    /// Adds a line. Every answer is within a line's range.
    fn put(&mut self, six: &Six) -> io::Result<()> {
        if self.bytes.len() - self.at < line::LENGTH {
            self.flush()?;
        }
        if line::write(six, &mut self.bytes[self.at..]).is_err() {
            return Err(io::Error::from(ErrorKind::InvalidData));
        }
        self.at += line::LENGTH;
        Ok(())
    }

    fn flush(&mut self) -> io::Result<()> {
        let written = self.output.write_all(&self.bytes[..self.at]);
        self.at = 0;
        written.and_then(|()| self.output.flush())
    }
}

/// Reads the table from the front of the input.
pub fn read_table<R: Read>(lines: &mut Lines<R>) -> Result<Module, Refusal> {
    table::read(|| lines.next_line())
}

/// The replay program from an input to an output.
pub fn replay(input: impl Read, output: impl Write) -> io::Result<()> {
    answer_lines(input, output, |module, line| match line {
        Line::Six(six) => module.step(&Event::from_six(six)).six(),
        Line::Bad => module.bad_line().six(),
    })
}

/// A program from an input to an output: table, then one answer line per line.
/// A bad table prints one line and ends.
pub fn answer_lines(
    input: impl Read,
    output: impl Write,
    answer: impl Fn(&mut Module, Line) -> Six,
) -> io::Result<()> {
    let mut lines = Lines::new(input);
    let mut block = Block::new(output);
    match read_table(&mut lines) {
        Ok(mut module) => {
            print_answers(&mut lines, &mut block, |line| answer(&mut module, line))?;
        }
        Err(refusal) => block.put(&refusal.numbers())?,
    }
    block.flush()
}

/// Whatever is answered goes out before more input is waited for.
fn print_answers<R: Read, W: Write>(
    lines: &mut Lines<R>,
    block: &mut Block<W>,
    mut answer: impl FnMut(Line) -> Six,
) -> io::Result<()> {
    loop {
        if lines.needs_input() {
            block.flush()?;
        }
        match lines.next_line() {
            Some(line) => block.put(&answer(line))?,
            None => return Ok(()),
        }
    }
}

/// The record after the last line; the empty record for a refused table.
pub fn final_record(input: impl Read) -> Module {
    let mut lines = Lines::new(input);
    let Ok(mut module) = read_table(&mut lines) else {
        return Module::empty();
    };
    while let Some(line) = lines.next_line() {
        if let Line::Six(six) = line {
            module.step(&Event::from_six(six));
        }
    }
    module
}
