//! The parts that the comparisons share: random numbers, fenced buffers, good and bad inputs, and the two programs
//! behind one interface.

// Each comparison is a program of its own and uses only some of these parts.
#![allow(dead_code)]

pub mod bad_bytes;
pub mod case;
pub mod chooser;
pub mod damage;
pub mod definition;
pub mod edges;
pub mod ends;
pub mod engines;
pub mod families;
pub mod fenced;
pub mod hopeless;
pub mod live;
pub mod made;
pub mod random;
pub mod scripts;
pub mod servers;
pub mod settings;
pub mod tables;
pub mod tally;
pub mod timers;
pub mod trace;
pub mod words;
