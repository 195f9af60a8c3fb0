//! The four bodies of a submission as records, for the generator and the notation.

use crate::reference::contents::{self, BodyBytes};
use crate::reference::{records, Checked};
use crate::tables::{Body, CONTENTS_SIZE};

#[derive(Clone, Default, PartialEq, Eq, Debug)]
pub struct Bodies {
    /// Kind, x, y.
    pub terms: Vec<[u8; 3]>,
    pub knowledge: Vec<u8>,
    /// Rule, p, q, conclusion.
    pub derivation: Vec<[u8; 4]>,
    /// Guess, verifying step, way, companion.
    pub claim: [u8; 4],
}

impl Bodies {
    /// The bodies of a submission that passes checks 1 and 2.
    pub fn read(submission: &[u8]) -> Checked<Bodies> {
        let [terms, knowledge, derivation, claim] = contents::bodies(submission)?;
        Ok(Bodies {
            terms: records(terms).collect(),
            knowledge: knowledge.to_vec(),
            derivation: records(derivation).collect(),
            claim: records(claim).next().expect("check 2 leaves one claim"),
        })
    }

    pub fn bytes(&self) -> BodyBytes<'_> {
        [self.terms.as_flattened(), &self.knowledge, self.derivation.as_flattened(), &self.claim]
    }

    pub fn submission(&self) -> Vec<u8> {
        submission(self.bytes())
    }

    /// The first register that a program writes: those before it hold the knowledge and the guess.
    pub fn first_written(&self) -> usize {
        self.knowledge.len() + 1
    }

    /// The same terms and knowledge, with the derivation and the claim that a program was read back
    /// to.
    pub fn with(&self, read_back: &[u8]) -> Bodies {
        let [derivation, claim] = divided(read_back);
        Bodies {
            derivation: records(derivation).collect(),
            claim: claim.try_into().expect("the bytes of one claim"),
            ..self.clone()
        }
    }
}

/// The derivation and the claim that stand one after the other.
pub fn divided(read_back: &[u8]) -> [&[u8]; 2] {
    let (derivation, claim) = read_back.split_at(read_back.len() - Body::Claim.record());
    [derivation, claim]
}

/// The name in an atom's record.
pub fn name([_, high, low]: [u8; 3]) -> u16 {
    u16::from_be_bytes([high, low])
}

/// The submission with these bodies: contents first. Unlike the reference's `write` it looks at no
/// limit, so that samples can break them. The counts are the numbers of whole records.
pub fn submission(bodies: BodyBytes) -> Vec<u8> {
    let mut contents = Vec::new();
    let mut start = CONTENTS_SIZE;
    for (body, bytes) in Body::ALL.into_iter().zip(bodies) {
        let count = u8::try_from(bytes.len() / body.record()).expect("at most 255 records");
        let [high, low] = u16::try_from(start).expect("a start of 16 bits").to_be_bytes();
        contents.extend([body.letter(), count, high, low]);
        start += bytes.len();
    }
    [contents, bodies.concat()].concat()
}
