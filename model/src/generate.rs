//! The generators of what both sides are compared on. A seed and the counts determine every byte.

pub mod boards;
pub mod random;
pub mod scripts;
pub mod texts;
