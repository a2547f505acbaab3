//! The judge of calls on streams.

use super::call::{StreamCall, StreamOutcome};
use super::stream::Stream;
use crate::judge::{Judge, Verdict};
use tikhoplav::hex;
use tikhoplav::pieces::Kind;
use tikhoplav::sizes::{KEY_SIZE, NONCE_SIZE, STATE_SIZE, TAG_SIZE};

impl Judge {
    /// The archive does what the model does, for a begin of edition 1 also by the call that names
    /// none. A refusal leaves state and output as lent.
    pub fn agree(&mut self, call: &StreamCall, state: &[u8]) -> Result<StreamOutcome, String> {
        self.comparisons += 1;
        let (archive, model) = (call.by_archive(state), call.by_model(state));
        let unnamed = call.by_unnamed_begin(state);
        let same = archive == model && unnamed.as_ref().is_none_or(|unnamed| *unnamed == model);
        let refused = u8::try_from(-archive.answer).is_ok_and(|number| number > 0);
        if same && (archive.answer > 0 || refused) {
            return Ok(archive);
        }
        Err(format!(
            "{}\n  state    {}\n  archive  {}\n  unnamed  {}\n  model    {}",
            call.shown(),
            hex::encode(state),
            archive.shown(),
            unnamed.map_or("-".to_string(), |unnamed| unnamed.shown()),
            model.shown(),
        ))
    }

    /// Both refuse with this number.
    pub fn refuse(&mut self, call: &StreamCall, state: &[u8], number: u8) -> Verdict {
        let outcome = self.agree(call, state)?;
        if outcome == call.refusal(state, number) {
            return Ok(());
        }
        let (call, state) = (call.shown(), hex::encode(state));
        Err(format!(
            "{call}\n  state {state}\n  expected refusal {number}, got {}",
            outcome.shown()
        ))
    }

    /// The begin of a stream under a random key and nonce.
    pub fn begin(&mut self, kind: Kind, ad_len: usize) -> StreamCall {
        StreamCall::Begin {
            kind,
            edition: self.edition,
            key: self.random.bytes(KEY_SIZE),
            nonce: self.random.bytes(NONCE_SIZE),
            ad_len,
        }
    }

    /// A stream that has just begun, on random bytes.
    pub fn begun(&mut self, kind: Kind, ad_len: usize) -> Result<Stream, String> {
        let begin = self.begin(kind, ad_len);
        let state = self.random.bytes(STATE_SIZE);
        Stream::begun(self, &begin, state)
    }

    /// The states of a stream in every place: begun, with part of its AD, with all of it, with one
    /// byte of the message, with more, and finished.
    pub fn stages(&mut self, kind: Kind, ad_len: usize) -> Result<Vec<Vec<u8>>, String> {
        let mut stream = self.begun(kind, ad_len)?;
        let part = ad_len.saturating_sub(1);
        let calls = [
            self.ad(kind, part),
            self.ad(kind, ad_len - part),
            self.data(kind, 1),
            self.data(kind, 258),
        ];
        let mut states = vec![stream.state.clone()];
        for call in calls {
            stream.accept(self, &call)?;
            states.push(stream.state.clone());
        }
        let finish = self.finish(kind, &stream.state);
        stream.accept(self, &finish)?;
        states.push(stream.state);
        Ok(states)
    }

    /// A random piece of the AD.
    pub fn ad(&mut self, kind: Kind, length: usize) -> StreamCall {
        StreamCall::Ad {
            kind,
            piece: self.random.bytes(length),
        }
    }

    /// A random piece of the message with exactly the room that it needs, or of the ciphertext.
    pub fn data(&mut self, kind: Kind, length: usize) -> StreamCall {
        let piece = self.random.bytes(length);
        match kind {
            Kind::Sealing => StreamCall::Message {
                piece,
                lent: self.random.bytes(length),
            },
            Kind::Checking => StreamCall::Ciphertext { piece },
        }
    }

    /// The finish with exactly the room that it needs, or with the tag that is right, where the
    /// state has one.
    pub fn finish(&mut self, kind: Kind, state: &[u8]) -> StreamCall {
        match kind {
            Kind::Sealing => StreamCall::Seal {
                lent: self.random.bytes(TAG_SIZE),
            },
            Kind::Checking => StreamCall::Check {
                tag: right_tag(state).unwrap_or_else(|| self.random.bytes(TAG_SIZE)),
            },
        }
    }

    /// Every call but the begins, with a piece of this length.
    pub fn calls(&mut self, length: usize, state: &[u8]) -> Vec<StreamCall> {
        let of_kind = |kind| {
            [
                self.ad(kind, length),
                self.data(kind, length),
                self.finish(kind, state),
            ]
        };
        super::KINDS.into_iter().flat_map(of_kind).collect()
    }
}

/// The tag that a state leads to by the model, if it is open and has its whole AD: that of a sealing
/// stream in the same place.
pub fn right_tag(state: &[u8]) -> Option<Vec<u8>> {
    let mut sealing = state.to_vec();
    *sealing.get_mut(48)? = 1;
    let finished = model::streams::sealing_finish(&sealing, TAG_SIZE);
    finished.ok().map(|accepted| accepted.written)
}
