//! A script as it comes in, call by call.

use crate::entry::Entry;
use crate::table::{ByNumber, by_number};
use std::io::{self, ErrorKind, Read};

/// What stands next in a script.
pub enum Next {
    Call(&'static Entry),
    Unknown(u8),
    Cut,
    End,
}

/// A script as it comes in. `arguments` holds those of the last call.
pub struct Script<R> {
    input: R,
    table: ByNumber,
    pub arguments: Vec<u8>,
}

impl<R: Read> Script<R> {
    pub fn new(input: R) -> Self {
        Script { input, table: by_number(), arguments: Vec::new() }
    }

    pub fn next(&mut self) -> io::Result<Next> {
        self.arguments.clear();
        if !self.take(1)? {
            return Ok(Next::End);
        }
        let Some(entry) = self.table[self.arguments[0] as usize] else {
            return Ok(Next::Unknown(self.arguments[0]));
        };
        self.arguments.clear();
        for kind in entry.arguments {
            // A slice takes two turns: its length, then its elements.
            let at = self.arguments.len();
            while self.arguments.len() - at < kind.size(&self.arguments[at..]) {
                let missing = kind.size(&self.arguments[at..]) - (self.arguments.len() - at);
                if !self.take(missing)? {
                    return Ok(Next::Cut);
                }
            }
        }
        Ok(Next::Call(entry))
    }

    /// Reads so many bytes more, or says that the script ends before them.
    fn take(&mut self, count: usize) -> io::Result<bool> {
        let at = self.arguments.len();
        self.arguments.resize(at + count, 0);
        match self.input.read_exact(&mut self.arguments[at..]) {
            Err(e) if e.kind() == ErrorKind::UnexpectedEof => Ok(false),
            done => done.map(|()| true),
        }
    }
}
