//! Inputs for the comparison and the benchmark: valid ones, and ones damaged near the places where document 01's rules change.
pub mod index;
pub mod ndx;
pub mod table;
pub mod text;
