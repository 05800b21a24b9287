//! Making, coding and opening: the calls that take no bundle.

use crate::cases::calls::{Calls, OUTPUT, USED};
use crate::cases::samples::{init, module, p, v, D, KEY, QUESTION, R};
use crate::group::LAST_ROUND;
use crate::sealed::Module;
use crate::station::JUMP_OFF;
use crate::tester::script::Command;
use crate::words::{Statement, NONE};

/// Records the calls after what was recorded.
pub fn module_cases(calls: &mut Calls) {
    calls.making();
    calls.coding();
    calls.opening();
}

impl Calls {
    fn making(&mut self) {
        self.author.comment("making");
        for n in [0, 1, 2, 3, 4, 7, 30, 31, 32, 33, 1 << 31, u32::MAX] {
            for number in [0, 1, 2, n.wrapping_sub(1), n, n.wrapping_add(1), u32::MAX] {
                let good = (2..=31).contains(&n) && 1 <= number && number <= n;
                let report = self.author.call(Command::Make(USED, KEY, n, number));
                assert_eq!(report.number, if good { 0 } else { 2 });
            }
        }
    }

    /// Codes words at a module both ways.
    fn code(&mut self, module: &Module, words: &[u32], expected: [Option<u32>; 4]) {
        let coins = [None, Some(0), Some(1), Some(2)];
        for (coin, expected) in coins.into_iter().zip(expected) {
            self.raw(module.words());
            self.author.put_all(OUTPUT, words);
            let report = self.author.call(match coin {
                None => Command::Plain(USED, OUTPUT),
                Some(coin) => Command::Toss(USED, OUTPUT, coin),
            });
            if let Some(expected) = expected {
                assert_eq!(report.number, expected, "{words:x?} with {coin:?}");
            }
        }
    }

    /// Both ways, with the numbers of the plain way, of a coin of 0 or 1, and of a coin of 2.
    fn code_all(&mut self, module: &Module, words: &[u32], plain: u32, coin: u32) {
        let expected = [Some(plain), Some(coin), Some(coin), Some(2)];
        self.code(module, words, expected);
    }

    fn coding(&mut self) {
        self.author.comment("coding");
        let fresh = module(4, 2, None);
        let last = LAST_ROUND;
        for statement in [
            init(2, 0),
            init(2, 1),
            p(2, 1, 0, D),
            p(2, last, 1, D),
            v(2, 1, NONE),
        ] {
            self.code_all(&fresh, &statement.words(), 0, 3);
        }
        for round in [1, 2, last] {
            self.code_all(&fresh, &p(2, round, 0, R).words(), 3, 0);
            self.code_all(&fresh, &p(2, round, 1, R).words(), 3, 0);
        }
        for value in [0, 1, NONE] {
            let words = v(2, last, value).words();
            self.code_all(&fresh, &words, 0, 3);
            self.code_all(&fresh, &words[..9], 3, 3);
            self.code_all(&fresh, &[&words[..], &[0]].concat(), 3, 3);
        }
        self.code_all(&fresh, &[], 3, 3);
        for other in [1, 3, 4] {
            self.code_all(&fresh, &p(other, 2, 1, D).words(), 5, 3);
            self.code_all(&fresh, &p(other, 2, 1, R).words(), 3, 5);
        }
        self.coding_fields(&fresh);
        self.coding_pairs();
        self.coding_modules();
    }

    fn coding_fields(&mut self, fresh: &Module) {
        for statement in [init(2, 1), p(2, 3, 1, D), p(2, 3, 0, R), v(2, 3, 1)] {
            for bit in 0..32 {
                let mut words = statement.words();
                words[0] ^= 1 << bit;
                let ill = (24..27).contains(&bit) || (18..24).contains(&bit);
                let expected = if ill { Some(3) } else { None };
                self.code(fresh, &words, [expected, expected, None, Some(2)]);
            }
            let mut no_station = statement;
            no_station.station = 0;
            self.code_all(fresh, &no_station.words(), 3, 3);
        }
    }

    /// "whose pair is greater than the last, question compared first"
    fn coding_pairs(&mut self) {
        for (question, step) in [(QUESTION, 0), (QUESTION, 4), (QUESTION, 5), (QUESTION, 6)] {
            for (r, flag) in [(1, D), (2, D), (2, R), (3, D), (3, R)] {
                let at = module(4, 2, Some((question, step)));
                let expected = if 2 * u64::from(r) > step { 0 } else { 12 };
                let (plain, coin) = if flag == D {
                    (expected, 3)
                } else {
                    (3, expected)
                };
                self.code_all(&at, &p(2, r, 0, flag).words(), plain, coin);
                let vote = if 2 * u64::from(r) + 1 > step { 0 } else { 12 };
                self.code_all(&at, &v(2, r, 0).words(), vote, 3);
            }
        }
        for (question, step, expected) in [
            (QUESTION - 1, 131_071, 0),
            (QUESTION + 1, 0, 12),
            (u32::MAX, 131_071, 12),
            (0, 0, 0),
            (QUESTION, 131_071, 12),
            (QUESTION, 131_070, 0),
        ] {
            let at = module(4, 2, Some((question, step)));
            self.code_all(&at, &v(2, LAST_ROUND, 0).words(), expected, 3);
        }
        let zero = module(4, 2, Some((0, 0)));
        let at_zero = Statement {
            question: 0,
            ..init(2, 0)
        };
        self.code_all(&zero, &at_zero.words(), 12, 3);
        self.code_all(&module(4, 2, None), &at_zero.words(), 0, 3);
    }

    /// Test 2 on the module comes first, then 3, 5, 12.
    fn coding_modules(&mut self) {
        let statement = p(2, 2, 0, D);
        for (n, number) in [
            (1, 1),
            (32, 2),
            (0, 0),
            (4, 0),
            (4, 5),
            (2, 3),
            (u32::MAX, 2),
        ] {
            self.code_all(&module(n, number, None), &statement.words(), 2, 2);
            self.code_all(&module(n, number, None), &[], 2, 2);
        }
        let late = module(4, 3, Some((u32::MAX, 0)));
        self.code_all(&late, &p(5, 2, 0, D).words(), 3, 3);
        self.code_all(&late, &p(2, 2, 0, D).words(), 5, 3);
        self.code_all(&late, &p(2, 2, 0, R).words(), 3, 5);
        self.code_all(&late, &p(3, 2, 0, D).words(), 12, 3);
        self.code_all(&module(31, 31, None), &p(31, 2, 0, D).words(), 0, 3);
    }

    fn opening(&mut self) {
        self.author.comment("opening");
        for length in [0, 1, 11, 330, 331, 332, 400] {
            for proposal in [0, 1, 2, u32::MAX] {
                for last in [None, Some((QUESTION, 0)), Some((QUESTION - 1, 131_071))] {
                    let expected = match (length, proposal, last) {
                        (0..=330, _, _) => 1,
                        (_, 2.., _) => 2,
                        (_, _, Some((QUESTION, _))) => 12,
                        _ => 20,
                    };
                    let opening = (QUESTION, proposal, JUMP_OFF);
                    self.open(&module(4, 2, last), opening, length, expected);
                }
            }
        }
        for (n, number) in [(1, 1), (32, 1), (4, 0), (4, 5), (0, 0), (u32::MAX, 1)] {
            self.open(&module(n, number, None), (QUESTION, 0, JUMP_OFF), 331, 2);
            self.open(&module(n, number, None), (QUESTION, 0, JUMP_OFF), 330, 1);
        }
        for (n, number) in [(2, 1), (2, 2), (31, 1), (31, 31), (7, 4)] {
            self.open(&module(n, number, None), (0, 1, JUMP_OFF), 331, 20);
            self.open(&module(n, number, None), (u32::MAX, 0, JUMP_OFF), 331, 20);
        }
        for last in [(0, 0), (0, 4), (1, 0), (u32::MAX, 131_071)] {
            self.open(&module(4, 1, Some(last)), (0, 1, JUMP_OFF), 331, 12);
        }
    }
}
