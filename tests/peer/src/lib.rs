//! A second implementation of the judge and of releases, written from docs/ alone, in plain Rust.
//! It shares no code and no way of solving with the proved crates, so where both agree, the definitions, the printing and the compiler have been tried.

pub mod agree;
pub mod agree_release;
pub mod answer;
pub mod chance;
pub mod circle;
pub mod damage;
pub mod edges;
pub mod every;
pub mod folder;
pub mod judge;
pub mod parallel;
pub mod program;
pub mod ratio;
pub mod reading;
pub mod release;
pub mod ring;
pub mod script;
pub mod scripts;
pub mod shrink;
pub mod solve;
pub mod tally;
pub mod view;
pub mod worked;
pub mod writer;
