//! A model of the bus fabric and of its wait table, written from the rules alone. It shares no code with the library that it is
//! compared with, so that a mistake of one is not a mistake of both.

pub mod board;
pub mod description;
pub mod fabric;
pub mod generate;
pub mod lanes;
pub mod records;
pub mod script;
pub mod table;
pub mod wait;
