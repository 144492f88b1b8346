//! The receive board in plain Rust, written from its rules alone, and the same work played on it and
//! on the proved board.

pub mod board;
pub mod cases;
pub mod clock;
pub mod crc;
pub mod descriptor;
pub mod layout;
pub mod memory;
pub mod plain;
pub mod player;
pub mod proved;
pub mod random;
pub mod recogniser;
pub mod refusal;
