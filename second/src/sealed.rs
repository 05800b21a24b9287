//! The sealed module: making it, and its two ways to code.

use crate::group::{number_in_range, size_in_range, KEY_WORDS, STATEMENT_WORDS};
use crate::hmac::Key;
use crate::returns::{BAD_CODE, ILL_FORMED, KEPT, NOT_ABOVE, OUT_OF_RANGE};
use crate::words::{Flag, Kind, Statement, Step};

/// The words of a module at the edge: key, n, station number, coded, last question, last step.
pub const MODULE_WORDS: usize = KEY_WORDS + 5;

/// "It holds the key, n, its station number and the last (question, step) that it coded, or
/// none."
#[derive(Clone, Debug, PartialEq, Eq)]
pub struct Module {
    pub key: Key,
    pub n: u32,
    pub number: u32,
    pub last: Option<(u32, Step)>,
}

impl Module {
    /// The module of 13 words.
    pub fn read(words: &[u32; MODULE_WORDS]) -> Module {
        let [n, number, coded, question, last_step] = words[KEY_WORDS..] else {
            unreachable!("five words are behind the key");
        };
        Module {
            key: words[..KEY_WORDS].try_into().expect("the key is in front"),
            n,
            number,
            last: (coded != 0).then_some((question, Step(last_step.into()))),
        }
    }

    /// The 13 words of the module.
    pub fn words(&self) -> [u32; MODULE_WORDS] {
        let mut words = [0; MODULE_WORDS];
        words[..KEY_WORDS].copy_from_slice(&self.key);
        words[8] = self.n;
        words[9] = self.number;
        if let Some((question, last_step)) = self.last {
            words[10] = 1;
            words[11] = question;
            words[12] = last_step.0.try_into().expect("a last step is one word");
        }
        words
    }

    /// Test 2 on a module: its n and its station number.
    pub fn in_range(&self) -> bool {
        size_in_range(self.n) && number_in_range(self.n, self.number)
    }

    /// "whose pair is greater than the last, question compared first"
    pub fn is_above_last(&self, statement: &Statement) -> bool {
        let pair = (statement.question, statement.step());
        self.last.is_none_or(|last| pair > last)
    }

    /// Codes a statement of the own station, or refuses by 12; the pair becomes the last.
    pub fn seal(&mut self, statement: Statement) -> Result<Statement, u32> {
        if !self.is_above_last(&statement) {
            return Err(NOT_ABOVE);
        }
        self.last = Some((statement.question, statement.step()));
        Ok(statement.coded(&self.key))
    }

    /// "it puts the coin in as the value and codes in the same call"
    pub fn seal_with_coin(&mut self, statement: Statement, coin: u32) -> Result<Statement, u32> {
        self.seal(Statement {
            value: coin,
            ..statement
        })
    }
}

/// "Making a module tests 2." A refused making returns the all-zero module.
pub fn make(key: &Key, n: u32, number: u32) -> (u32, Module) {
    let module = Module {
        key: *key,
        n,
        number,
        last: None,
    };
    if module.in_range() {
        (KEPT, module)
    } else {
        (OUT_OF_RANGE, Module::read(&[0; MODULE_WORDS]))
    }
}

/// "The coin way is only for a P flagged R-GET"
fn is_for_coin(statement: &Statement) -> bool {
    statement.kind == Kind::P && statement.flag == Flag::RGet
}

/// "Coding tests 2 (n, station number, coin), 3, 5, 12." The coin is none in the plain way.
fn code(module: &mut Module, lent: &mut [u32], coin: Option<u32>) -> Result<(), u32> {
    if !module.in_range() || coin.is_some_and(|coin| coin > 1) {
        return Err(OUT_OF_RANGE);
    }
    let statement = Statement::read(lent, module.n).ok_or(ILL_FORMED)?;
    // "or the wrong way to code": "The plain way takes every other statement and refuses an
    // R-GET."
    if is_for_coin(&statement) != coin.is_some() {
        return Err(ILL_FORMED);
    }
    // "or a statement of another station to code"
    if statement.station != module.number {
        return Err(BAD_CODE);
    }
    let sealed = match coin {
        None => module.seal(statement)?,
        Some(coin) => module.seal_with_coin(statement, coin)?,
    };
    lent[..STATEMENT_WORDS].copy_from_slice(&sealed.words());
    Ok(())
}

fn number_of(result: Result<(), u32>) -> u32 {
    match result {
        Ok(()) => KEPT,
        Err(number) => number,
    }
}

/// The plain way to code: the lent words are one statement, and receive its code.
pub fn code_plain(module: &mut Module, lent: &mut [u32]) -> u32 {
    number_of(code(module, lent, None))
}

/// The coin way to code: the lent words are one R-GET proposal, and receive coin and code.
pub fn code_coin(module: &mut Module, lent: &mut [u32], coin: u32) -> u32 {
    number_of(code(module, lent, Some(coin)))
}
