//! Tests of the planning package from outside: its calls, a second implementation of them, and a port to measure it against.
pub mod asked;
pub mod generate;
pub mod library;
pub mod port;
pub mod reference;
pub mod studies;
