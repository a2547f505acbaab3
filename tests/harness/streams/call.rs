//! One call on a stream's state, and what it makes of it.

use model::streams;
use tikhoplav::hex;
use tikhoplav::pieces::{self, Kind};

#[derive(Clone)]
pub enum StreamCall {
    Begin {
        kind: Kind,
        edition: u32,
        key: Vec<u8>,
        nonce: Vec<u8>,
        ad_len: usize,
    },
    Ad {
        kind: Kind,
        piece: Vec<u8>,
    },
    Message {
        piece: Vec<u8>,
        /// The output as it is lent to the call.
        lent: Vec<u8>,
    },
    Ciphertext {
        piece: Vec<u8>,
    },
    /// Ends a sealing stream.
    Seal {
        lent: Vec<u8>,
    },
    /// Ends a checking stream.
    Check {
        tag: Vec<u8>,
    },
}

/// The answer, and state and output afterwards.
#[derive(Clone, PartialEq, Eq)]
pub struct StreamOutcome {
    pub answer: i64,
    pub state: Vec<u8>,
    pub out: Vec<u8>,
}

impl StreamCall {
    /// A begin by the call that names the edition.
    pub fn by_archive(&self, state: &[u8]) -> StreamOutcome {
        let (mut state, mut out) = (state.to_vec(), self.lent().to_vec());
        let answer = match self {
            StreamCall::Begin {
                kind,
                edition,
                key,
                nonce,
                ad_len,
            } => kind.begin(*edition, &mut state, key, nonce, *ad_len),
            StreamCall::Ad { kind, piece } => kind.ad(&mut state, piece),
            StreamCall::Message { piece, .. } => pieces::message(&mut state, piece, &mut out),
            StreamCall::Ciphertext { piece } => pieces::ciphertext(&mut state, piece),
            StreamCall::Seal { .. } => pieces::sealing_finish(&mut state, &mut out),
            StreamCall::Check { tag } => pieces::checking_finish(&mut state, tag),
        };
        StreamOutcome { answer, state, out }
    }

    /// A begin of edition 1 by the call that names none.
    pub fn by_unnamed_begin(&self, state: &[u8]) -> Option<StreamOutcome> {
        let StreamCall::Begin {
            kind,
            edition: 1,
            key,
            nonce,
            ad_len,
        } = self
        else {
            return None;
        };
        let mut state = state.to_vec();
        let answer = kind.begin_unnamed(&mut state, key, nonce, *ad_len);
        let out = Vec::new();
        Some(StreamOutcome { answer, state, out })
    }

    pub fn by_model(&self, state: &[u8]) -> StreamOutcome {
        let answer = match self {
            StreamCall::Begin {
                kind,
                edition,
                key,
                nonce,
                ad_len,
            } => {
                let edition = Some(*edition);
                streams::begin(of_model(*kind), edition, state.len(), key, nonce, *ad_len)
            }
            StreamCall::Ad { kind, piece } => streams::ad(of_model(*kind), state, piece),
            StreamCall::Message { piece, lent } => streams::message(state, piece, lent.len()),
            StreamCall::Ciphertext { piece } => streams::ciphertext(state, piece),
            StreamCall::Seal { lent } => streams::sealing_finish(state, lent.len()),
            StreamCall::Check { tag } => streams::checking_finish(state, tag),
        };
        match answer {
            Ok(accepted) => self.success(accepted.clocks, accepted.state, &accepted.written),
            Err(number) => self.refusal(state, number),
        }
    }

    /// The bytes written stand at the front of the output, and behind them it is as lent.
    fn success(&self, clocks: i64, state: Vec<u8>, written: &[u8]) -> StreamOutcome {
        let mut out = self.lent().to_vec();
        out[..written.len()].copy_from_slice(written);
        StreamOutcome {
            answer: clocks,
            state,
            out,
        }
    }

    /// Minus the number, and state and output as lent.
    pub fn refusal(&self, state: &[u8], number: u8) -> StreamOutcome {
        StreamOutcome {
            answer: -i64::from(number),
            state: state.to_vec(),
            out: self.lent().to_vec(),
        }
    }

    /// The call of a checking stream for one of a sealing stream, which gave these bytes.
    pub fn turned(&self, given: &[u8]) -> StreamCall {
        let given = given.to_vec();
        match self {
            StreamCall::Ad { piece, .. } => StreamCall::Ad {
                kind: Kind::Checking,
                piece: piece.clone(),
            },
            StreamCall::Message { .. } => StreamCall::Ciphertext { piece: given },
            StreamCall::Seal { .. } => StreamCall::Check { tag: given },
            _ => unreachable!("no such call of a sealing stream"),
        }
    }

    fn lent(&self) -> &[u8] {
        match self {
            StreamCall::Message { lent, .. } | StreamCall::Seal { lent } => lent,
            _ => &[],
        }
    }

    /// The call and its inputs, their bytes in hex, for a report.
    pub fn shown(&self) -> String {
        let hex = |bytes: &[u8]| hex::encode(bytes);
        match self {
            StreamCall::Begin {
                kind,
                edition,
                key,
                nonce,
                ad_len,
            } => format!(
                "{kind:?}, begin, edition {edition}, key {}, nonce {}, AD length {ad_len}",
                hex(key),
                hex(nonce)
            ),
            StreamCall::Ad { kind, piece } => format!("{kind:?}, AD {}", hex(piece)),
            StreamCall::Message { piece, lent } => {
                format!("message {}, lent {}", hex(piece), hex(lent))
            }
            StreamCall::Ciphertext { piece } => format!("ciphertext {}", hex(piece)),
            StreamCall::Seal { lent } => format!("finish of sealing, lent {}", hex(lent)),
            StreamCall::Check { tag } => format!("finish of checking, tag {}", hex(tag)),
        }
    }
}

impl StreamOutcome {
    pub fn shown(&self) -> String {
        let (state, out) = (hex::encode(&self.state), hex::encode(&self.out));
        format!("{}, state {state}, output {out}", self.answer)
    }
}

/// The kind by the model's name.
fn of_model(kind: Kind) -> streams::Kind {
    match kind {
        Kind::Sealing => streams::Kind::Sealing,
        Kind::Checking => streams::Kind::Checking,
    }
}
