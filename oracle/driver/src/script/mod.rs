//! Scripts of calls: made, ended oddly, read, and answered by the Rust.

pub mod answer;
pub mod ends;
pub mod generate;
pub mod read;
