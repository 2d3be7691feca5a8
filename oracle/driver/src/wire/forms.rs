//! States field by field, in the Rust's order of fields. One list of fields serves to read a state from arguments and
//! to write it to an answer.

use crate::wire::answer::Answer;
use crate::wire::arguments::Arguments;
use plaits::fm::envelope::Envelope;
use plaits::fm::lfo::{Lfo, Waveform};
use plaits::fm::patch::{self, Patch};

/// What is done with each field: it is read into its place, or written from there under its name.
pub trait Fields {
    fn u8(&mut self, name: &'static str, x: &mut u8);
    fn bool(&mut self, name: &'static str, x: &mut bool);
    fn u32(&mut self, name: &'static str, x: &mut u32);
    fn i32(&mut self, name: &'static str, x: &mut i32);
    fn f32(&mut self, name: &'static str, x: &mut f32);

    fn usize(&mut self, name: &'static str, x: &mut usize) {
        let mut short = *x as u32;
        self.u32(name, &mut short);
        *x = short as usize;
    }

    fn u8s(&mut self, name: &'static str, xs: &mut [u8]) {
        xs.iter_mut().for_each(|x| self.u8(name, x));
    }

    fn f32s(&mut self, name: &'static str, xs: &mut [f32]) {
        xs.iter_mut().for_each(|x| self.f32(name, x));
    }
}

macro_rules! fields {
    ($($kind:ident)*) => {
        impl Fields for Arguments<'_> {
            $(fn $kind(&mut self, _: &'static str, x: &mut $kind) {
                *x = Arguments::$kind(self);
            })*
        }

        impl Fields for Answer {
            $(fn $kind(&mut self, name: &'static str, x: &mut $kind) {
                Answer::$kind(self.name(name), *x);
            })*
        }
    };
}
fields!(u8 bool u32 i32 f32);

/// 156 bytes.
pub fn patch(to: &mut impl Fields, patch: &mut Patch) {
    patch.op.iter_mut().for_each(|op| operator(to, op));
    to.u8s("pitch_envelope.rate", &mut patch.pitch_envelope.rate);
    to.u8s("pitch_envelope.level", &mut patch.pitch_envelope.level);
    to.u8("algorithm", &mut patch.algorithm);
    to.u8("feedback", &mut patch.feedback);
    to.u8("reset_phase", &mut patch.reset_phase);
    modulations(to, &mut patch.modulations);
    to.u8("transpose", &mut patch.transpose);
    to.u8s("name", &mut patch.name);
    to.u8("active_operators", &mut patch.active_operators);
}

/// 21 bytes.
pub fn operator(to: &mut impl Fields, operator: &mut patch::Operator) {
    to.u8s("envelope.rate", &mut operator.envelope.rate);
    to.u8s("envelope.level", &mut operator.envelope.level);
    to.u8("left_depth", &mut operator.keyboard_scaling.left_depth);
    to.u8("right_depth", &mut operator.keyboard_scaling.right_depth);
    to.u8("left_curve", &mut operator.keyboard_scaling.left_curve);
    to.u8("right_curve", &mut operator.keyboard_scaling.right_curve);
    to.u8("break_point", &mut operator.keyboard_scaling.break_point);
    to.u8("rate_scaling", &mut operator.rate_scaling);
    to.u8("amp_mod_sensitivity", &mut operator.amp_mod_sensitivity);
    to.u8("velocity_sensitivity", &mut operator.velocity_sensitivity);
    to.u8("level", &mut operator.level);
    to.u8("mode", &mut operator.mode);
    to.u8("coarse", &mut operator.coarse);
    to.u8("fine", &mut operator.fine);
    to.u8("detune", &mut operator.detune);
}

/// 7 bytes.
pub fn modulations(to: &mut impl Fields, modulations: &mut patch::ModulationParameters) {
    to.u8("delay", &mut modulations.delay);
    to.u8("rate", &mut modulations.rate);
    to.u8("pitch_mod_depth", &mut modulations.pitch_mod_depth);
    to.u8("amp_mod_depth", &mut modulations.amp_mod_depth);
    to.u8("reset_phase", &mut modulations.reset_phase);
    to.u8("waveform", &mut modulations.waveform);
    to.u8("pitch_mod_sensitivity", &mut modulations.pitch_mod_sensitivity);
}

/// The stage in four bytes and eleven floats.
pub fn envelope<const RESHAPED: bool>(to: &mut impl Fields, envelope: &mut Envelope<4, RESHAPED>) {
    to.usize("stage", &mut envelope.stage);
    to.f32("phase", &mut envelope.phase);
    to.f32("start", &mut envelope.start);
    to.f32s("increment", &mut envelope.increment);
    to.f32s("level", &mut envelope.level);
    to.f32("scale", &mut envelope.scale);
}

/// Ten floats, the waveform, a bool, and an i32.
pub fn lfo(to: &mut impl Fields, lfo: &mut Lfo) {
    to.f32("phase", &mut lfo.phase);
    to.f32("frequency", &mut lfo.frequency);
    to.f32("delay_phase", &mut lfo.delay_phase);
    to.f32s("delay_increment", &mut lfo.delay_increment);
    to.f32("value", &mut lfo.value);
    to.f32("random_value", &mut lfo.random_value);
    to.f32("one_hz", &mut lfo.one_hz);
    to.f32("amp_mod_depth", &mut lfo.amp_mod_depth);
    to.f32("pitch_mod_depth", &mut lfo.pitch_mod_depth);
    let mut waveform = lfo.waveform as u8;
    to.u8("waveform", &mut waveform);
    lfo.waveform = Waveform::from(waveform);
    to.bool("reset_phase", &mut lfo.reset_phase);
    to.i32("phase_integral", &mut lfo.phase_integral);
}
