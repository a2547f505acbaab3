//! `tikhoplav parts`.

use crate::failure::Failure;
use crate::inputs;
use crate::options::Options;
use crate::refusal;
use crate::streams;
use tikhoplav::archive;
use tikhoplav::hex;
use tikhoplav::sizes::TAG_SIZE;

/// Prints the ciphertext part and the tag part, a line each. Two lines are printed in any case;
/// that there is no tag is said on standard error.
pub fn run(options: &Options) -> Result<(), Failure> {
    let sealed = inputs::data(options)?;
    let (ciphertext, tag) = archive::parts(&sealed);
    let lines = format!("{}\n{}\n", hex::encode(ciphertext), hex::encode(tag));
    streams::write_stdout(lines.as_bytes())?;
    if tag.is_empty() {
        let size = refusal::count(sealed.len());
        eprintln!(
            "tikhoplav: too short to have a tag: the sealed input is {size}, and a tag alone is \
             {TAG_SIZE}"
        );
    }
    Ok(())
}
