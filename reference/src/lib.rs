//! A stepping bench for shared vectors: operations of up to 8 threads on one
//! vector of up to 64 cells, played one memory access at a time.
//!
//! [`play`] is what the program `bench` prints for a script. The modules show
//! the parts, so that single steps, words and thread rows can be looked at.

pub mod bench;
pub mod bundle;
pub mod container;
pub mod coverage;
pub mod descriptor;
pub mod draw;
pub mod explain;
pub mod kinds;
pub mod listing;
pub mod lock;
pub mod memory;
pub mod operation;
pub mod play;
pub mod refusal;
pub mod script;
pub mod word;

pub use play::{play, LISTING_LIMIT};
pub use refusal::Refusal;
