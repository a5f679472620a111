//! Tests of the second decoder of H.265; they need no engine.

mod by_hand;
mod listing;
mod random;
mod session;
mod stop;
mod trees;
