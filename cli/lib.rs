//! What the tool, the tests and the benchmark share.

pub mod archive;
pub mod capture_vectors;
pub mod captures;
pub mod frames;
pub mod grain128a;
pub mod grain128a_vectors;
pub mod grainv1;
pub mod grainv1_vectors;
pub mod hex;
pub mod pieces;
pub mod signal_vectors;
pub mod signals;
pub mod sizes;
pub mod vectors;
