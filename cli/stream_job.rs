//! The selftest's jobs in pieces, through a stream of either kind.

use crate::job::{lent, Job};
use tikhoplav::pieces::{self, Kind};
use tikhoplav::sizes::{STATE_SIZE, TAG_SIZE};

pub const PIECE: usize = 7;

/// A state, and the clocks that calls have answered so far.
struct Stream {
    state: Vec<u8>,
    clocks: i64,
}

impl Stream {
    /// A stream that has taken the AD.
    fn begin(kind: Kind, edition: u32, job: &Job) -> Option<Stream> {
        let mut stream = Stream {
            state: lent(STATE_SIZE),
            clocks: if edition == 1 { 384 } else { 512 },
        };
        let state = &mut stream.state;
        let answer = kind.begin(edition, state, &job.key, &job.nonce, job.ad.len());
        stream.answered(answer, 8 * coded_length(job.ad.len()))?;
        for piece in job.ad.chunks(PIECE) {
            let answer = kind.ad(&mut stream.state, piece);
            stream.answered(answer, 8 * piece.len())?;
        }
        Some(stream)
    }

    /// The answer is the clocks with these bits of the string.
    fn answered(&mut self, answer: i64, bits: usize) -> Option<()> {
        self.clocks += 2 * bits as i64;
        (answer == self.clocks).then_some(())
    }

    /// A checking stream that has taken AD and ciphertext.
    fn checking(edition: u32, job: &Job, ciphertext: &[u8]) -> Option<Stream> {
        let mut stream = Stream::begin(Kind::Checking, edition, job)?;
        for piece in ciphertext.chunks(PIECE) {
            let answer = pieces::ciphertext(&mut stream.state, piece);
            stream.answered(answer, 8 * piece.len())?;
        }
        Some(stream)
    }

    fn accepts(&mut self, tag: &[u8]) -> bool {
        let answer = pieces::checking_finish(&mut self.state, tag);
        self.answered(answer, 1).is_some()
    }

    /// The tag is refused, and the state is as it was.
    fn refuses(&mut self, tag: &[u8]) -> bool {
        let before = self.state.clone();
        let answer = pieces::checking_finish(&mut self.state, tag);
        (answer, &self.state) == (-7, &before)
    }
}

/// The bytes of the AD's coded length.
fn coded_length(ad_len: usize) -> usize {
    match ad_len {
        0..=127 => 1,
        128..=255 => 2,
        _ => 3,
    }
}

impl Job {
    /// The sealed payload, where every call answers the clocks.
    pub fn seal_in_pieces(&self, edition: u32) -> Option<Vec<u8>> {
        let mut stream = Stream::begin(Kind::Sealing, edition, self)?;
        let mut payload = lent(self.message.len() + TAG_SIZE);
        let (ciphertext, tag) = payload.split_at_mut(self.message.len());
        for (piece, out) in self.message.chunks(PIECE).zip(ciphertext.chunks_mut(PIECE)) {
            let answer = pieces::message(&mut stream.state, piece, out);
            stream.answered(answer, 8 * piece.len())?;
        }
        let answer = pieces::sealing_finish(&mut stream.state, tag);
        stream.answered(answer, 1)?;
        Some(payload)
    }

    /// The tag is accepted, and every call answers the clocks.
    pub fn checks_in_pieces(&self, edition: u32, payload: &[u8]) -> bool {
        let parts = payload.split_last_chunk::<TAG_SIZE>();
        parts.is_some_and(|(ciphertext, tag)| {
            let stream = Stream::checking(edition, self, ciphertext);
            stream.is_some_and(|mut stream| stream.accepts(tag))
        })
    }

    /// The tag with a bit changed is refused; the tag itself is accepted after that.
    pub fn wrong_tag_leaves_open(&self, edition: u32, payload: &[u8]) -> bool {
        let parts = payload.split_last_chunk::<TAG_SIZE>();
        parts.is_some_and(|(ciphertext, tag)| {
            let mut wrong = *tag;
            wrong[TAG_SIZE - 1] ^= 1;
            let stream = Stream::checking(edition, self, ciphertext);
            stream.is_some_and(|mut stream| stream.refuses(&wrong) && stream.accepts(tag))
        })
    }

    /// The call that names no edition begins the stream that edition 1 has.
    pub fn begins_unnamed(&self, kind: Kind) -> bool {
        let (mut first, mut unnamed) = (lent(STATE_SIZE), lent(STATE_SIZE));
        let (key, nonce, ad_len) = (&self.key, &self.nonce, self.ad.len());
        let answer = kind.begin(1, &mut first, key, nonce, ad_len);
        let same = answer == kind.begin_unnamed(&mut unnamed, key, nonce, ad_len);
        same && answer > 0 && first == unnamed
    }
}
