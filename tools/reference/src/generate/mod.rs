//! Inputs for the programs, made from seeds alone.

pub mod damage;
pub mod encoding_damage;
pub mod encodings;
pub mod families;
pub mod inputs;
pub mod line_damage;
pub mod lines;
pub mod near;
pub mod pairs;
pub mod scripts;
pub mod tables;
pub mod terms;
