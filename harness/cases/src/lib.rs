//! What the differential run and the recorded sample share: the float routines with the oracle's answers, and inputs of every kind,
//! pseudo-random and the same at every run with the same seed. A float stands here as its 64 bits.
pub mod inputs;
pub mod routine;
pub mod words;
