//! A stream with all that its accepted calls took and gave, so that it can be held against the
//! whole-string calls and against the machine.

use super::call::{StreamCall, StreamOutcome};
use crate::judge::{Judge, Verdict};
use crate::trial::Trial;
use model::{Edition, Machine};
use tikhoplav::archive::Call;
use tikhoplav::pieces::Kind;
use tikhoplav::sizes::TAG_SIZE;

#[derive(Clone)]
pub struct Stream {
    pub kind: Kind,
    edition: u32,
    key: Vec<u8>,
    nonce: Vec<u8>,
    pub ad_len: usize,
    pub ad: Vec<u8>,
    /// Message or ciphertext.
    pub data: Vec<u8>,
    /// The ciphertext, and at last the tag, that a sealing stream gave.
    pub given: Vec<u8>,
    pub finished: bool,
    pub state: Vec<u8>,
}

impl Stream {
    /// By a begin that is accepted, on these bytes.
    pub fn begun(judge: &mut Judge, begin: &StreamCall, state: Vec<u8>) -> Result<Stream, String> {
        let mut stream = Stream {
            kind: Kind::Sealing,
            edition: 0,
            key: Vec::new(),
            nonce: Vec::new(),
            ad_len: 0,
            ad: Vec::new(),
            data: Vec::new(),
            given: Vec::new(),
            finished: false,
            state,
        };
        stream.accept(judge, begin)?;
        Ok(stream)
    }

    /// Makes a call, which may be refused, and keeps what it takes and gives.
    pub fn make(&mut self, judge: &mut Judge, call: &StreamCall) -> Result<i64, String> {
        let outcome = judge.agree(call, &self.state)?;
        let answer = outcome.answer;
        if let StreamCall::Check { tag } = call {
            self.beside_opening(judge, tag, answer)?;
        }
        if answer < 0 {
            return Ok(answer);
        }
        self.record(call, outcome);
        judge.holds("the clocks are those so far", answer == self.clocks())?;
        if let StreamCall::Seal { .. } = call {
            self.beside_sealing(judge)?;
        }
        Ok(answer)
    }

    /// Makes a call that is accepted.
    pub fn accept(&mut self, judge: &mut Judge, call: &StreamCall) -> Verdict {
        match self.make(judge, call)? {
            clocks if clocks > 0 => Ok(()),
            answer => Err(format!("{}\n  is refused: {answer}", call.shown())),
        }
    }

    fn record(&mut self, call: &StreamCall, outcome: StreamOutcome) {
        self.state = outcome.state;
        match call {
            StreamCall::Begin {
                kind,
                edition,
                key,
                nonce,
                ad_len,
            } => {
                (self.kind, self.edition, self.ad_len) = (*kind, *edition, *ad_len);
                (self.key, self.nonce) = (key.clone(), nonce.clone());
                (self.ad, self.data, self.given) = (Vec::new(), Vec::new(), Vec::new());
                self.finished = false;
            }
            StreamCall::Ad { piece, .. } => self.ad.extend(piece),
            StreamCall::Message { piece, .. } => {
                self.data.extend(piece);
                self.given.extend(&outcome.out[..piece.len()]);
            }
            StreamCall::Ciphertext { piece } => self.data.extend(piece),
            StreamCall::Seal { .. } => {
                self.given.extend(&outcome.out[..TAG_SIZE]);
                self.finished = true;
            }
            StreamCall::Check { .. } => self.finished = true,
        }
    }

    /// The whole-string call on the joined pieces.
    fn whole(&self, call: Call, data: Vec<u8>, room: usize) -> Trial {
        Trial {
            call,
            edition: self.edition,
            key: self.key.clone(),
            nonce: self.nonce.clone(),
            ad: self.ad.clone(),
            data,
            lent: vec![0xa5; room],
        }
    }

    /// What sealing the joined pieces gives is what the stream gave.
    fn beside_sealing(&self, judge: &mut Judge) -> Verdict {
        let sealing = self.whole(Call::Seal, self.data.clone(), self.given.len());
        judge.expect(&sealing, &sealing.success(&self.given))
    }

    /// Where it is the tag that decides, opening the joined pieces with room for the message decides
    /// as the stream does.
    fn beside_opening(&self, judge: &mut Judge, tag: &[u8], answer: i64) -> Verdict {
        if answer < 0 && answer != -7 {
            return Ok(());
        }
        let sealed = [&self.data, tag].concat();
        let opening = self.whole(Call::Open, sealed, self.data.len());
        let opened = opening.by_archive().answer;
        let same = match answer {
            -7 => opened == -7,
            _ => opened == self.data.len() as i64,
        };
        judge.holds("the verdict is that of opening", same)
    }

    fn start_up(&self) -> usize {
        match self.edition {
            1 => 384,
            _ => 512,
        }
    }

    /// Those of start-up, and two for each bit of the string so far.
    pub fn clocks(&self) -> i64 {
        let bytes = model::coded_length(self.ad_len).len() + self.ad.len() + self.data.len();
        (self.start_up() + 16 * bytes + 2 * usize::from(self.finished)) as i64
    }

    /// The registers in the state are those of the machine after the string so far.
    pub fn beside_machine(&self, judge: &mut Judge) -> Verdict {
        let edition = Edition::numbered(self.edition).expect("an edition that is known");
        let mut machine = Machine::start(edition, &self.key, &self.nonce);
        machine.absorb_bytes(&model::coded_length(self.ad_len));
        machine.absorb_bytes(&self.ad);
        for bit in edition.bits(&self.data) {
            let keystream = match self.kind {
                Kind::Sealing => 0,
                Kind::Checking => machine.preoutput(),
            };
            machine.absorb(bit ^ keystream);
        }
        if self.finished {
            machine.absorb(1);
        }
        let [s0, s1, b0, b1] = machine.words();
        let words = [s0, s1, b0, b1, machine.accumulator(), machine.register()];
        let registers = words.map(u64::to_be_bytes).concat();
        judge.holds(
            "the state has the machine's registers",
            self.state[..48] == registers,
        )
    }

    /// A checking stream that begins under the same key and nonce.
    pub fn turned(&self, judge: &mut Judge) -> Result<Stream, String> {
        let begin = StreamCall::Begin {
            kind: Kind::Checking,
            edition: self.edition,
            key: self.key.clone(),
            nonce: self.nonce.clone(),
            ad_len: self.ad_len,
        };
        Stream::begun(judge, &begin, self.state.clone())
    }

    pub fn ad_left(&self) -> usize {
        self.ad_len - self.ad.len()
    }
}
