//! Dumps that come in pieces: the reader between calls, and the dump that a script is sending to it.

use std::collections::VecDeque;

/// What a reader has taken since it was opened, and whether it has ended. Behind byte 4,105 nothing is kept, since no
/// answer depends on it.
#[derive(Default)]
pub struct Reader {
    pub taken: Vec<u8>,
    pub ended: bool,
}

/// The dump that is being sent, the places where a list cuts it that are still to come, how many bytes the reader has
/// taken, and whether it has ended.
#[derive(Default)]
pub struct Sending {
    pub dump: Vec<u8>,
    pub cuts: VecDeque<usize>,
    pub taken: usize,
    pub ended: bool,
}

impl Sending {
    /// What of the dump is not yet taken.
    pub fn rest(&self) -> &[u8] {
        self.dump.get(self.taken..).unwrap_or_default()
    }
}
