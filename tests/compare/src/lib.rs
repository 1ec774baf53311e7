//! What the comparisons share: generated inputs, and the C functions beside the independent ones on each of them.

pub mod audit;
pub mod captures;
pub mod damage;
pub mod held;
pub mod line;
pub mod listings;
pub mod program;
pub mod reader;
pub mod rows;
mod sample;
pub mod scene;
pub mod scripts;
pub mod sessions;
pub mod slices;
pub mod stored;
pub mod writer;

pub use independent::random::Random;
