//! What programs `generate` and `oracle` share: the text form of cases and answers, random numbers, and factors.

pub mod factor;
pub mod grid;
pub mod random;
pub mod text;
