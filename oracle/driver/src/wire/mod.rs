//! Numbers as a script and its answers have them.

pub mod answer;
pub mod arguments;
pub mod forms;
pub mod kind;
