//! The jobs: their lines, how they are made, document 01's domain, and the program that answers them for the library. Nothing of the crate.
pub mod asked;
pub mod domain;
pub mod job;
pub mod make;
