//! The second program: the rules of the rig once more, written from the rules alone in the plainest Rust. It is
//! compared with the proved program byte for byte, and shares no code, no table of constants and no design with it.
//!
//! Times, costs, serials and row numbers are plain `u64` here. The comparison keeps them apart, and not the types.

pub mod chooser;
pub mod due;
pub mod host;
pub mod live;
pub mod memory;
pub mod numbers;
pub mod refusal;
pub mod replay;
pub mod run;
pub mod script;
pub mod sound;
pub mod table;
pub mod trace;
pub mod verdict;
