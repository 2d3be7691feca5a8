//! The two programs, started on the same script.

use crate::compare::side::Side;
use crate::options::Options;
use crate::script::generate::Generator;
use std::io::Write;
use std::time::Duration;

/// How long an answer is awaited, in the long script and in short ones.
pub const LONG: Duration = Duration::from_secs(60);
pub const SHORT: Duration = Duration::from_secs(5);

/// The command lines of the two programs.
pub struct Pair {
    pub rust: Vec<String>,
    pub ours: Vec<String>,
}

impl Pair {
    /// Starts both on the same bytes.
    pub fn start(&self, script: &[u8]) -> Result<(Side, Side), String> {
        let side = |words| {
            let script = script.to_vec();
            Side::start(words, true, SHORT, move |input| input.write_all(&script))
        };
        Ok((side(&self.rust)?, side(&self.ours)?))
    }

    /// Starts both on the first calls of the seed's script. Each side makes it for itself, so that none of it is kept.
    pub fn start_on(&self, options: &Options, calls: u64, patience: Duration) -> Result<(Side, Side), String> {
        let side = |words| {
            let mut script = Generator::of(options);
            let feed = move |input: &mut dyn Write| (0..calls).try_for_each(|_| input.write_all(script.next().1));
            Side::start(words, patience == SHORT, patience, feed)
        };
        Ok((side(&self.rust)?, side(&self.ours)?))
    }
}
