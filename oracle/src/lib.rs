//! The original optimiser as the judge of its rewrite. See README.md.

pub mod adversary;
pub mod cases;
pub mod damage;
pub mod entry;
pub mod fit;
pub mod floats;
pub mod json;
pub mod leaves;
pub mod list;
pub mod named;
pub mod pairs;
pub mod play;
pub mod random;
pub mod record;
pub mod refusal;
pub mod respond;
pub mod setup;
pub mod setups;
pub mod shapes;
pub mod small;
pub mod summary;
#[cfg(test)]
mod tests;
