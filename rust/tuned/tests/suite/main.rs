//! Tests of the tuned decoder; they need no engine.

mod equal;
mod paper;
