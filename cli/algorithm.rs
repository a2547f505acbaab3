//! The cipher that `--cipher` names.

use crate::failure::Failure;
use crate::options::Options;

#[derive(Clone, Copy, PartialEq, Eq)]
pub enum Algorithm {
    Grain128Aead,
    Grain128a,
    GrainV1,
}

const NAMED: [(&str, Algorithm); 3] = [
    ("grain-128aead", Algorithm::Grain128Aead),
    ("grain-128a", Algorithm::Grain128a),
    ("grain-v1", Algorithm::GrainV1),
];

impl Algorithm {
    /// None where the option is not given.
    pub fn read(options: &Options) -> Result<Option<Algorithm>, Failure> {
        let Some(value) = options.value("--cipher") else {
            return Ok(None);
        };
        match NAMED.iter().find(|(name, _)| value == *name) {
            Some((_, algorithm)) => Ok(Some(*algorithm)),
            None => Err(Failure::Usage(format!(
                "--cipher: '{}' is none of grain-128aead, grain-128a and grain-v1",
                value.display()
            ))),
        }
    }
}
