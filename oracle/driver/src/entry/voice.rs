//! The voice between calls: what the Rust's voice has, and what it has no words for, the number of operators, the row,
//! the plan and the switch.

use crate::wire::answer::Answer;
use crate::wire::arguments::Arguments;
use crate::wire::forms::{self, Fields};
use plaits::fm::envelope::{OperatorEnvelope, PitchEnvelope};
use plaits::fm::operator::Operator;
use plaits::fm::patch::Patch;
use plaits::fm::voice::Voice;

/// The bytes of a voice in an answer.
pub const SIZE: usize = 667;

/// A voice as an answer has it: arrays of six, and what stands behind the number of operators stays as it is.
#[derive(Clone)]
pub struct State {
    pub operators: usize,
    pub sample_rate: f32,
    pub one_hz: f32,
    pub a0: f32,
    pub gate: bool,
    pub operator: [Operator; 6],
    pub operator_envelope: [OperatorEnvelope; 6],
    pub pitch_envelope: PitchEnvelope,
    pub normalized_velocity: f32,
    pub note: f32,
    /// Whether it is a ratio to 1 Hz, and the ratio.
    pub ratios: [(bool, f32); 6],
    pub level_headroom: [f32; 6],
    pub feedback_state: [f32; 2],
    pub has_patch: bool,
    pub patch: Patch,
    pub row: [u8; 6],
    pub plan: [u8; 31],
    pub dirty: bool,
    /// Whether notes are moved as the patch's transpose says.
    pub transposing: bool,
}

impl State {
    /// All zero.
    pub fn new() -> Self {
        State {
            operators: 0,
            sample_rate: 0.0,
            one_hz: 0.0,
            a0: 0.0,
            gate: false,
            operator: std::array::from_fn(|_| Operator::new()),
            operator_envelope: std::array::from_fn(|_| OperatorEnvelope::new()),
            pitch_envelope: PitchEnvelope::new(),
            normalized_velocity: 0.0,
            note: 0.0,
            ratios: [(false, 0.0); 6],
            level_headroom: [0.0; 6],
            feedback_state: [0.0; 2],
            has_patch: false,
            patch: Patch::new(),
            row: [0; 6],
            plan: [0; 31],
            dirty: false,
            transposing: false,
        }
    }

    /// As a voice starts, without operators. A refused start gives it with a scale of 0.
    pub fn fresh(scale: f32) -> Self {
        let mut state = State { normalized_velocity: 10.0, note: 48.0, dirty: true, ..State::new() };
        state.operator_envelope.iter_mut().for_each(|envelope| envelope.0.init(scale));
        state.pitch_envelope.0.init(scale);
        state
    }

    /// Reads or writes its fields, in order.
    pub fn form(&mut self, to: &mut impl Fields) {
        to.usize("operators", &mut self.operators);
        to.f32("sample_rate", &mut self.sample_rate);
        to.f32("one_hz", &mut self.one_hz);
        to.f32("a0", &mut self.a0);
        to.bool("gate", &mut self.gate);
        for operator in &mut self.operator {
            to.u32("operator.phase", &mut operator.phase);
            to.f32("operator.amplitude", &mut operator.amplitude);
        }
        self.operator_envelope.iter_mut().for_each(|envelope| forms::envelope(to, &mut envelope.0));
        forms::envelope(to, &mut self.pitch_envelope.0);
        to.f32("normalized_velocity", &mut self.normalized_velocity);
        to.f32("note", &mut self.note);
        for (hertz, ratio) in &mut self.ratios {
            to.bool("ratio to 1 Hz", hertz);
            to.f32("ratio", ratio);
        }
        to.f32s("level_headroom", &mut self.level_headroom);
        to.f32s("feedback_state", &mut self.feedback_state);
        to.bool("has_patch", &mut self.has_patch);
        forms::patch(to, &mut self.patch);
        to.u8s("row", &mut self.row);
        to.u8("plan.count", &mut self.plan[0]);
        for call in self.plan[1..].chunks_exact_mut(5) {
            to.u8s("plan.call", &mut call[..4]);
            let mut add = call[4] != 0;
            to.bool("plan.call.add", &mut add);
            call[4] = add as u8;
        }
        to.bool("dirty", &mut self.dirty);
        to.bool("transposing", &mut self.transposing);
    }

    /// Its bytes in an answer.
    pub fn image(&self) -> Vec<u8> {
        let mut answer = Answer::default();
        self.clone().form(&mut answer);
        answer.bytes
    }

    /// The voice whose image has another byte in one place.
    pub fn bent(&self, place: usize, byte: u8) -> Self {
        let mut bytes = self.image();
        bytes[place] = byte;
        let mut state = State::new();
        state.form(&mut Arguments(&bytes));
        state
    }

    /// Copies it into the Rust's voice, which has a negative number for a ratio to 1 Hz.
    pub fn fill<const N: usize>(&self, voice: &mut Voice<'static, N, 32>) {
        *voice = Voice {
            algorithms: None,
            sample_rate: self.sample_rate,
            one_hz: self.one_hz,
            a0: self.a0,
            gate: self.gate,
            operator: std::array::from_fn(|i| self.operator[i].clone()),
            operator_envelope: std::array::from_fn(|i| self.operator_envelope[i].clone()),
            pitch_envelope: self.pitch_envelope.clone(),
            normalized_velocity: self.normalized_velocity,
            note: self.note,
            ratios: std::array::from_fn(|i| if self.ratios[i].0 { -self.ratios[i].1 } else { self.ratios[i].1 }),
            level_headroom: std::array::from_fn(|i| self.level_headroom[i]),
            level: [0.0; N],
            feedback_state: self.feedback_state,
            patch: self.has_patch.then(|| self.patch.clone()),
            dirty: self.dirty,
        };
    }

    /// Copies it back from the Rust's voice.
    pub fn read_back<const N: usize>(&mut self, voice: &Voice<'static, N, 32>) {
        self.sample_rate = voice.sample_rate;
        self.one_hz = voice.one_hz;
        self.a0 = voice.a0;
        self.gate = voice.gate;
        self.pitch_envelope = voice.pitch_envelope.clone();
        self.normalized_velocity = voice.normalized_velocity;
        self.note = voice.note;
        for i in 0..N {
            self.operator[i] = voice.operator[i].clone();
            self.operator_envelope[i] = voice.operator_envelope[i].clone();
            self.ratios[i] = (voice.ratios[i] < 0.0, voice.ratios[i].abs());
            self.level_headroom[i] = voice.level_headroom[i];
        }
        self.feedback_state = voice.feedback_state;
        self.has_patch = voice.patch.is_some();
        if let Some(patch) = &voice.patch {
            self.patch = patch.clone();
        }
        self.dirty = voice.dirty;
    }
}
