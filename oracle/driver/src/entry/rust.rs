//! The few helpers by which entries reach into the Rust.

use plaits::fm::algorithms::{Algorithms, RenderCall};
use plaits::fm::operator::{Operator, render_operators};
use plaits::fm::voice::Voice;
use std::cell::RefCell;

/// Puts a row into a table and compiles it, as if it had always stood there.
pub fn put_row<const N: usize, const M: usize>(table: &mut Algorithms<N, M>, row: usize, opcodes: [u8; N]) {
    table.opcodes[row] = opcodes;
    table.render_call[row] = std::array::from_fn(|_| RenderCall::new());
    table.compile(row as u32);
}

/// Does some work on a stored voice with its table lent to it: the Rust's voice borrows its table, and a register
/// can't borrow another. Beware: the Rust renders without end where a call of the row has no renderer.
pub fn with_table<const N: usize, const M: usize, T>(
    stored: &mut Voice<'static, N, M>,
    table: &Algorithms<N, M>,
    work: impl for<'a> FnOnce(&mut Voice<'a, N, M>, &'a Algorithms<N, M>) -> T,
) -> T {
    let mut voice: Voice<N, M> = stored.clone();
    voice.algorithms = Some(table);
    let done = work(&mut voice, table);
    let Voice { sample_rate, one_hz, a0, gate, operator, operator_envelope, pitch_envelope, .. } = voice;
    let Voice { normalized_velocity, note, ratios, level_headroom, level, feedback_state, patch, dirty, .. } = voice;
    *stored = Voice {
        algorithms: None,
        sample_rate,
        one_hz,
        a0,
        gate,
        operator,
        operator_envelope,
        pitch_envelope,
        normalized_velocity,
        note,
        ratios,
        level_headroom,
        level,
        feedback_state,
        patch,
        dirty,
    };
    done
}

/// Does some work on a block's four quarters in the form that the Rust's voice takes.
pub fn with_quarters<T>(block: &mut [f32], work: impl FnOnce(&[RefCell<&mut [f32]>; 4]) -> T) -> T {
    let (output, rest) = block.split_at_mut(block.len() / 4);
    let (first, rest) = rest.split_at_mut(output.len());
    let (second, third) = rest.split_at_mut(output.len());
    work(&[output, first, second, third].map(RefCell::new))
}

/// The step for a frequency: how far one sample moves the phase of an operator at rest.
pub fn step(frequency: f32) -> u32 {
    let mut operator = [Operator::new()];
    let (input, output) = (RefCell::new(&mut [][..]), &mut [0.0][..]);
    render_operators::<1, -1, false>(
        &mut operator,
        &[frequency],
        &[0.0],
        &mut [0.0; 2],
        0,
        &input,
        &RefCell::new(output),
    );
    operator[0].phase
}

/// The mark of a frequency in document 02's words: 1 held at the top (above 0.5 or NaN), 2 held at zero (below 0), 0 as
/// asked.
pub fn mark(frequency: f32) -> u8 {
    match frequency {
        x if x > 0.5 || x.is_nan() => 1,
        x if x < 0.0 => 2,
        _ => 0,
    }
}
