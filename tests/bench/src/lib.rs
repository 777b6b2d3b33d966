//! What the engine is timed against and with: a plain Rust program, pictures
//! and tables, and how two calls are timed in turn.

pub mod inputs;
pub mod plain;
pub mod turns;
