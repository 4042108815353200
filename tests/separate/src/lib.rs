//! The partition executive of document 01, with the buffers and blackboards of
//! document 02, a), the queuing channels of b), the releases inside a frame of
//! d), the preemption lock of e), the ticks left in the window of f) and the
//! exact waiting time of g), written from these papers alone.
//!
//! It serves as a judge: another program that claims to be the same machine
//! can be run beside it on the same input, answer by answer (`replay`, `waits`)
//! and record by record (`dump`).

pub mod asking;
pub mod calls;
pub mod coverage;
pub mod damage;
pub mod dump;
pub mod events;
pub mod generate;
pub mod line;
pub mod machine;
pub mod questions;
pub mod record;
pub mod replay;
pub mod rng;
pub mod table;
pub mod tables;
pub mod timing;
pub mod waiting;

pub use line::Six;
pub use machine::{Answer, Event, EventRecord};
pub use record::Module;
