//! Statements and bundles, and the words they are made of.

use crate::group::{number_in_range, LAST_ROUND, MOST_CERTIFICATE, STATEMENT_WORDS};
use crate::hmac::{code, Key};

/// "Bits 31..30 kind (0 INIT, 1 P, 2 V; 3 never)."
#[derive(Clone, Copy, Debug, PartialEq, Eq)]
pub enum Kind {
    Init,
    P,
    V,
}

/// "Bit 27 flag (0 D-GET, taken from votes; 1 R-GET, from the coin)."
#[derive(Clone, Copy, Debug, PartialEq, Eq)]
pub enum Flag {
    DGet,
    RGet,
}

/// "Bits 29..28 value (0, 1, or 2 = none)."
pub const NONE: u32 = 2;

/// "A round and a step are counted apart": a step is compared with steps only. It holds 64 bits, since
/// the step of a round is about twice the round.
#[derive(Clone, Copy, Debug, PartialEq, Eq, PartialOrd, Ord)]
pub struct Step(pub u64);

/// "INIT has step 0, P of round r step 2r, V of round r step 2r + 1."
pub fn step(kind: Kind, round: u32) -> Step {
    let round = u64::from(round);
    match kind {
        Kind::Init => Step(0),
        Kind::P => Step(2 * round),
        Kind::V => Step(2 * round + 1),
    }
}

/// A well-formed statement.
#[derive(Clone, Copy, Debug, PartialEq, Eq)]
pub struct Statement {
    pub kind: Kind,
    pub value: u32,
    pub flag: Flag,
    pub station: u32,
    pub round: u32,
    pub question: u32,
    pub code: [u32; 8],
}

impl Statement {
    /// A statement before it is coded: its code is zeros.
    pub fn uncoded(kind: Kind, round: u32, value: u32, flag: Flag, who: (u32, u32)) -> Statement {
        let (station, question) = who;
        Statement {
            kind,
            value,
            flag,
            station,
            round,
            question,
            code: [0; 8],
        }
    }

    pub fn step(&self) -> Step {
        step(self.kind, self.round)
    }

    /// Word 0: kind, value, flag, zeros, station, round.
    pub fn word0(&self) -> u32 {
        let kind = match self.kind {
            Kind::Init => 0,
            Kind::P => 1,
            Kind::V => 2,
        };
        let flag = match self.flag {
            Flag::DGet => 0,
            Flag::RGet => 1,
        };
        kind << 30 | self.value << 28 | flag << 27 | self.station << 16 | self.round
    }

    /// The ten words: word 0, the question, the code.
    pub fn words(&self) -> [u32; STATEMENT_WORDS] {
        let mut words = [0; STATEMENT_WORDS];
        words[0] = self.word0();
        words[1] = self.question;
        words[2..].copy_from_slice(&self.code);
        words
    }

    /// The same statement with the code of its words 0 and 1.
    pub fn coded(mut self, key: &Key) -> Statement {
        self.code = code(key, self.word0(), self.question);
        self
    }

    /// Whether the code verifies. All eight words are looked at before the answer.
    pub fn verifies(&self, key: &Key) -> bool {
        let expected = code(key, self.word0(), self.question);
        let differing = self
            .code
            .iter()
            .zip(expected)
            .fold(0, |seen, (given, wanted)| seen | (given ^ wanted));
        differing == 0
    }

    /// Reads ten words as a statement of a group of n; none where they are not well-formed.
    pub fn read(words: &[u32], n: u32) -> Option<Statement> {
        let words: &[u32; STATEMENT_WORDS] = words.try_into().ok()?;
        let statement = Statement {
            kind: match words[0] >> 30 {
                0 => Kind::Init,
                1 => Kind::P,
                2 => Kind::V,
                _ => return None,
            },
            value: words[0] >> 28 & 3,
            flag: match words[0] >> 27 & 1 {
                0 => Flag::DGet,
                _ => Flag::RGet,
            },
            station: words[0] >> 16 & 0xff,
            round: words[0] & 0xffff,
            question: words[1],
            code: words[2..].try_into().expect("eight words are left"),
        };
        let zero_bits = words[0] >> 24 & 7;
        (zero_bits == 0 && statement.fields_in_range(n)).then_some(statement)
    }

    /// Whether the fields are as 01 says for the kind, the station being one of 1 to n.
    fn fields_in_range(&self, n: u32) -> bool {
        let round_in_range = (1..=LAST_ROUND).contains(&self.round);
        let by_kind = match self.kind {
            // "INIT has round 0, value 0 or 1, flag 0."
            Kind::Init => self.round == 0 && self.value <= 1 && self.flag == Flag::DGet,
            // "P has round 1 to 65,535 and value 0 or 1."
            Kind::P => round_in_range && self.value <= 1,
            // "V has such a round, flag 0 and value 0, 1 or none."
            Kind::V => round_in_range && self.flag == Flag::DGet && self.value <= NONE,
        };
        by_kind && number_in_range(n, self.station)
    }
}

/// "A bundle is a head word ..., one main statement, then the certificate."
#[derive(Clone, Debug, PartialEq, Eq)]
pub struct Bundle {
    pub main: Statement,
    pub certificate: Vec<Statement>,
}

/// "a head word (bits 31..30 are 3, bits 29..16 zero, bits 15..0 the count of certificate
/// statements, 0 to 32)"
pub fn head(count: usize) -> u32 {
    3 << 30 | count as u32
}

impl Bundle {
    /// Reads words as a bundle of a group of n; none where anything in them is not well-formed.
    pub fn read(words: &[u32], n: u32) -> Option<Bundle> {
        let (&head_word, rest) = words.split_first()?;
        let count = (head_word & 0xffff) as usize;
        if head_word != head(count) || count > MOST_CERTIFICATE {
            return None;
        }
        // "It has 1 + 10 × (1 + count) words"
        if rest.len() != STATEMENT_WORDS * (1 + count) {
            return None;
        }
        let statements: Option<Vec<Statement>> = rest
            .chunks_exact(STATEMENT_WORDS)
            .map(|ten| Statement::read(ten, n))
            .collect();
        let mut statements = statements?;
        let certificate = statements.split_off(1);
        Some(Bundle {
            main: statements[0],
            certificate,
        })
    }

    /// The words of the bundle.
    pub fn words(&self) -> Vec<u32> {
        let mut words = vec![head(self.certificate.len())];
        words.extend(self.main.words());
        for statement in &self.certificate {
            words.extend(statement.words());
        }
        words
    }

    /// Writes the bundle at the front of the lent words and answers its word count; "words behind
    /// the bundle are untouched".
    pub fn write(&self, lent: &mut [u32]) -> usize {
        let words = self.words();
        lent[..words.len()].copy_from_slice(&words);
        words.len()
    }
}
