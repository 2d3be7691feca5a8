//! The states that live between calls. A new group's state is a field here, with its start.

use crate::entry::pieces::Reader;
use crate::entry::voice::State;
use plaits::fm::algorithms::Algorithms;
use plaits::fm::envelope::OperatorEnvelope;
use plaits::fm::lfo::Lfo;
use plaits::fm::patch::Patch;
use plaits::fm::voice::Voice;
use plaits::utils::random;

/// The registers, one of each kind. The generator's number is the Rust's own: `random::seed` sets it, `random::state`
/// reads it. The tables and the Rust's voices are for work within a call.
pub struct Registers {
    pub patch: Patch,
    /// For both kinds: a call says whether it is an operator's or the pitch's.
    pub envelope: OperatorEnvelope,
    pub lfo: Lfo,
    pub rows_4: Algorithms<4, 32>,
    pub rows_6: Algorithms<6, 32>,
    pub voice_4: Voice<'static, 4, 32>,
    pub voice_6: Voice<'static, 6, 32>,
    pub voice: State,
    /// Of a dump that comes in pieces.
    pub reader: Reader,
}

impl Registers {
    pub fn new() -> Self {
        random::seed(0x21);
        Registers {
            patch: Patch::new(),
            envelope: OperatorEnvelope::new(),
            lfo: Lfo::new(),
            rows_4: Algorithms::new(),
            rows_6: Algorithms::new(),
            voice_4: Voice::new(),
            voice_6: Voice::new(),
            voice: State::new(),
            reader: Reader::default(),
        }
    }
}
