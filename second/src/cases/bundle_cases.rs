//! Checks: bundles for each rule, valid and with each single fault.

use crate::cases::samples::{bundle, init, inits, none_votes, p, proposals, some, v};
use crate::cases::samples::{D, KEY, QUESTION, R};
use crate::cases::valid_bundles::valid_bundles;
use crate::group::{backing, quorum, LAST_ROUND, MOST_CERTIFICATE, STATEMENT_WORDS};
use crate::hmac::code;
use crate::sealed::MODULE_WORDS;
use crate::tester::author::Author;
use crate::tester::changes::field_faults;
use crate::tester::script::Command;
use crate::words::{head, Bundle, Kind, Statement, NONE};

const SIZES: [u32; 5] = [2, 3, 4, 6, 31];
/// Registers: the group's module, modules that differ, the valid bundle, its damaged copy.
const GROUP: usize = 0;
const VALID: usize = 0;
const DAMAGED: usize = 1;

struct Cases {
    author: Author,
    n: u32,
}

// ---- single faults ------------------------------------------------------------------------

/// The words of a bundle with statement i (0 is the main one) given new words 0 and 1, and the
/// code of these or the code as it was.
fn with_words(bundle: &Bundle, i: usize, word0: u32, word1: u32, coded: bool) -> Vec<u32> {
    let mut words = bundle.words();
    let at = 1 + STATEMENT_WORDS * i;
    words[at] = word0;
    words[at + 1] = word1;
    if coded {
        words[at + 2..at + STATEMENT_WORDS].copy_from_slice(&code(&KEY, word0, word1));
    }
    words
}

/// Whether INITs stand behind the first group, as Job 2 of 02 wants them of a vote of round 1.
fn has_inits_behind(n: u32, bundle: &Bundle) -> bool {
    let behind = bundle.certificate.get(quorum(n));
    behind.is_some_and(|s| s.kind == Kind::Init)
}

/// The statements looked at: main, first and last, and the first of INITs behind proposals; at n 4
/// the first and last of each group.
fn positions(n: u32, bundle: &Bundle) -> Vec<usize> {
    let count = bundle.certificate.len();
    let q = quorum(n);
    let mut all = vec![0, 1, count];
    if n == 4 {
        all.extend([q, q + 1]);
    }
    if has_inits_behind(n, bundle) {
        all.push(q + 1);
    }
    all.retain(|i| *i <= count);
    all.sort();
    all.dedup();
    all
}

/// Groups in place of the INITs of a vote of round 1: of another value, of another kind, one station
/// twice, q of them.
fn instead_of_inits(n: u32, group: &[Statement]) -> Vec<Vec<Statement>> {
    let value = group[0].value;
    let stations: Vec<u32> = group.iter().map(|s| s.station).collect();
    let each = |stations: &[u32], make: &dyn Fn(u32) -> Statement| -> Vec<Statement> {
        stations.iter().map(|s| make(*s)).collect()
    };
    let mut all = vec![
        each(&stations, &|s| init(s, 1 - value)),
        inits(n, 1 - value, true),
        each(&stations, &|s| p(s, 1, value, D)),
        each(&stations, &|s| v(s, 1, value)),
        proposals(n, 1, value, &[D], true),
        none_votes(n, 1, true),
    ];
    // at n 2 the backing of 0 is q
    if quorum(n) != group.len() {
        all.push(each(&some(n, quorum(n), true), &|s| init(s, value)));
    }
    if let [first, _, rest @ ..] = group {
        all.push([&[*first; 2][..], rest].concat());
    }
    let mut places = vec![0, group.len() / 2, group.len() - 1];
    places.dedup();
    for i in places {
        for other in [init(stations[i], 1 - value), p(stations[i], 1, value, D)] {
            let mut one = group.to_vec();
            one[i] = other;
            all.push(one);
        }
    }
    all
}

/// Words 0 that make an INIT ill-formed: "INIT has round 0, value 0 or 1, flag 0."
fn ill_formed_inits(n: u32, word0: u32) -> Vec<u32> {
    let mut all = vec![word0 | 1, word0 | LAST_ROUND, word0 | 1 << 27];
    for value in [2, 3] {
        all.push(word0 & !(3 << 28) | value << 28);
    }
    for station in [0, n + 1] {
        all.push(word0 & !(255 << 16) | station << 16);
    }
    all
}

/// So many INITs, and the number of a bundle that has them where the backing is wanted: one fewer,
/// the backing, one more.
fn around_backing(n: u32, value: u32) -> [(usize, u32); 3] {
    let size = backing(n, value);
    // at n 2 a third INIT is of a station over n
    let more = if size as u32 == n { 3 } else { 6 };
    [(size - 1, 6), (size, 0), (size + 1, more)]
}

/// A module with the key and this n, which are all that a check looks at.
fn module_of(n: u32) -> [u32; MODULE_WORDS] {
    let mut words = [0; MODULE_WORDS];
    words[..8].copy_from_slice(&KEY);
    words[8] = n;
    words
}

impl Cases {
    /// Checks the words against the valid bundle in its register: only what differs is put.
    fn case(&mut self, module: usize, words: &[u32], expected: Option<u32>) {
        self.author.put_like(DAMAGED, VALID, words);
        let report = self.author.call(Command::Check(module, DAMAGED));
        if let Some(expected) = expected {
            assert_eq!(
                report.number,
                expected,
                "{:?}",
                self.author.machine.buffers[DAMAGED].seen()
            );
        }
    }

    fn check(&mut self, words: &[u32], expected: u32) {
        self.case(GROUP, words, Some(expected));
    }

    fn any(&mut self, words: &[u32]) {
        self.case(GROUP, words, None);
    }

    /// All faults of one bundle.
    fn faults_of(&mut self, name: &str, bundle: &Bundle) {
        self.author.comment(&format!("n {}: {name}", self.n));
        let words = bundle.words();
        self.author.put_all(VALID, &words);
        let report = self.author.call(Command::Check(GROUP, VALID));
        assert_eq!(report.number, 0, "n {} {name}", self.n);
        self.head_faults(&words);
        for i in positions(self.n, bundle) {
            self.statement_faults(bundle, i);
        }
        self.code_faults(bundle);
        self.group_faults(bundle);
        self.full_certificates(bundle);
        self.value_faults(bundle);
        self.order_of_tests(bundle);
        self.other_sizes(&words);
        match has_inits_behind(self.n, bundle) {
            true => self.init_faults(bundle),
            false => self.inits_behind(bundle),
        }
    }

    fn head_faults(&mut self, words: &[u32]) {
        let with_head = |head: u32| [&[head], &words[1..]].concat();
        for fault in [
            0,
            1 << 31,
            1 << 30,
            3 << 30 | 1 << 16,
            3 << 30 | 1 << 29,
            3 << 30 | 1 << 22,
        ] {
            self.check(&with_head(fault | words[0] & 0xffff), 3);
        }
        for count in [
            words[0] + 1,
            words[0].wrapping_sub(1),
            head(MOST_CERTIFICATE + 1),
        ] {
            self.check(&with_head(count), 3);
        }
        self.check(&[], 3);
        self.check(&words[..1], 3);
        self.check(&words[..10], 3);
        self.check(&words[..words.len() - 1], 3);
        self.check(&[words, &[0]].concat(), 3);
        let cut = words.len() - STATEMENT_WORDS;
        self.check(&words[..cut], 3);
    }

    fn statement_faults(&mut self, bundle: &Bundle, i: usize) {
        let at = 1 + STATEMENT_WORDS * i;
        let words = bundle.words();
        let (word0, word1) = (words[at], words[at + 1]);
        for (fault, ill) in field_faults(self.n, word0) {
            let coded = ill.is_none();
            self.case(GROUP, &with_words(bundle, i, fault, word1, coded), ill);
            if ill.is_none() && i < 2 {
                self.any(&with_words(bundle, i, fault, word1, false));
            }
        }
        let alone = i == 0 && bundle.certificate.is_empty();
        let expected = if alone { 0 } else { 4 };
        self.check(&with_words(bundle, i, word0, word1 ^ 1, true), expected);
        self.check(
            &with_words(bundle, i, word0, word1 ^ 1 << 31, true),
            expected,
        );
    }

    /// "a code that doesn't verify": each of its words, in the main, first and last statement.
    fn code_faults(&mut self, bundle: &Bundle) {
        let count = bundle.certificate.len();
        let mut looked_at = vec![0, 1.min(count), count];
        looked_at.dedup();
        for i in looked_at {
            for word in 2..STATEMENT_WORDS {
                let mut words = bundle.words();
                words[1 + STATEMENT_WORDS * i + word] ^= 1 << ((3 * word + i) % 32);
                self.check(&words, 5);
            }
        }
    }

    fn try_certificate(&mut self, bundle: &Bundle, certificate: Vec<Statement>) {
        let main = bundle.main;
        let expected = if certificate.len() > MOST_CERTIFICATE {
            3
        } else {
            6
        };
        self.check(&Bundle { main, certificate }.words(), expected);
    }

    /// Sizes and stations: one too few, one too many, twice, falling, a group missing or extra.
    fn group_faults(&mut self, bundle: &Bundle) {
        let all = &bundle.certificate;
        let count = all.len();
        let q = quorum(self.n);
        let large = self.n == 31;
        let mut left_out = vec![0, q - 1, count.saturating_sub(1)];
        if has_inits_behind(self.n, bundle) {
            left_out.insert(2, q);
            left_out.dedup();
        }
        for i in left_out {
            if i < count && (i > 0 || !large) {
                let mut fewer = all.clone();
                fewer.remove(i);
                self.try_certificate(bundle, fewer);
                let mut twice = all.clone();
                twice.insert(i, all[i]);
                self.try_certificate(bundle, twice);
            }
        }
        if count > 1 {
            let mut falling = all.clone();
            falling.swap(count - 2, count - 1);
            self.try_certificate(bundle, falling);
            let mut repeated = all.clone();
            repeated[1] = all[0];
            self.try_certificate(bundle, repeated);
        }
        self.one_too_many(bundle);
        if count > q {
            self.try_certificate(bundle, all[..q].to_vec());
            self.try_certificate(bundle, all[q..].to_vec());
            self.try_certificate(bundle, [&all[q..], &all[..q]].concat());
            self.try_certificate(bundle, [&all[..q], &all[..q]].concat());
        } else if count > 0 {
            self.try_certificate(bundle, Vec::new());
            self.try_certificate(bundle, [&all[..], &all[..]].concat());
        }
    }

    /// Counts of 32 and 33.
    fn full_certificates(&mut self, bundle: &Bundle) {
        let filler = bundle.certificate.first().unwrap_or(&bundle.main);
        let mut full = bundle.certificate.clone();
        full.resize(MOST_CERTIFICATE, *filler);
        if full != bundle.certificate {
            self.try_certificate(bundle, full.clone());
        }
        full.push(*filler);
        self.try_certificate(bundle, full);
    }

    /// A further statement like the last, of a station that is not yet in its group; and a second
    /// group where none is wanted.
    fn one_too_many(&mut self, bundle: &Bundle) {
        let (n, all) = (self.n, &bundle.certificate);
        let main = bundle.main;
        let Some(last) = all.last() else {
            self.try_certificate(bundle, vec![init(1, 0)]);
            self.try_certificate(bundle, vec![init(main.station, main.value)]);
            return;
        };
        let before = if all.len() > quorum(n) { quorum(n) } else { 0 };
        let (before, group) = all.split_at(before);
        for station in (1..=n).filter(|s| group.iter().all(|held| held.station != *s)) {
            let mut more = group.to_vec();
            more.push(Statement { station, ..*last }.coded(&KEY));
            more.sort_by_key(|s| s.station);
            self.try_certificate(bundle, [before, &more].concat());
            if station > 3 {
                break;
            }
        }
        if all.len() == quorum(n) && main.round < LAST_ROUND && main.kind != Kind::Init {
            for round in [main.round, main.round.max(2) - 1] {
                let p_group = proposals(n, round, main.value & 1, &[D], true);
                self.try_certificate(bundle, [&all[..], &p_group[..]].concat());
                let v_group = none_votes(n, round, true);
                self.try_certificate(bundle, [&all[..], &v_group[..]].concat());
            }
        }
    }

    /// All statements of a group changed alike: value, round, kind or flag.
    fn value_faults(&mut self, bundle: &Bundle) {
        let q = quorum(self.n).min(bundle.certificate.len());
        let ways: [fn(Statement) -> Statement; 7] = [
            |s| Statement { value: 0, ..s },
            |s| Statement { value: 1, ..s },
            |s| Statement {
                value: NONE,
                kind: Kind::V,
                flag: D,
                round: s.round.max(1),
                ..s
            },
            |s| Statement {
                round: (s.round + 1).min(LAST_ROUND),
                ..s
            },
            |s| Statement {
                round: s.round.max(2) - 1,
                ..s
            },
            |s| Statement { flag: D, ..s },
            |s| Statement {
                flag: if s.kind == Kind::P { R } else { D },
                ..s
            },
        ];
        // at n 31 a few of them, since each is long
        let tried = if self.n == 31 { &ways[..3] } else { &ways[..] };
        for way in tried {
            for range in [0..q, q..bundle.certificate.len()] {
                let mut certificate = bundle.certificate.clone();
                for statement in &mut certificate[range] {
                    *statement = way(*statement).coded(&KEY);
                }
                if certificate != bundle.certificate {
                    let main = bundle.main;
                    let one_value = certificate.iter().all(|s| s.value != 0)
                        || certificate.iter().all(|s| s.value != 1);
                    // rules 6 and 7: "both values present"
                    let expected = (main.value == NONE && one_value).then_some(6);
                    self.case(GROUP, &Bundle { main, certificate }.words(), expected);
                }
            }
        }
    }

    /// Pairs of faults that show the order 3, 4, 5, 6, each over the whole bundle.
    fn order_of_tests(&mut self, bundle: &Bundle) {
        let count = bundle.certificate.len();
        let last = 1 + STATEMENT_WORDS * count;
        let words = bundle.words();
        if count > 0 {
            let mut three_and_four = with_words(bundle, 0, words[1], QUESTION + 1, true);
            three_and_four[last] |= 3 << 30;
            self.check(&three_and_four, 3);
            let mut four_and_five = words.clone();
            four_and_five[3] ^= 1;
            four_and_five[last + 1] ^= 1;
            self.check(&four_and_five, 4);
            let mut four_and_six = bundle.clone();
            four_and_six.certificate[0].question ^= 1;
            four_and_six.certificate[0] = four_and_six.certificate[0].coded(&KEY);
            four_and_six.certificate.pop();
            let expected = if count > 1 { 4 } else { 6 };
            self.check(&four_and_six.words(), expected);
        }
        let mut three_and_five = words.clone();
        three_and_five[STATEMENT_WORDS] ^= 1;
        three_and_five[last] |= 1 << 25;
        self.check(&three_and_five, 3);
        let mut five_and_six = bundle.clone();
        five_and_six.certificate.push(init(1, 0));
        if five_and_six.certificate.len() <= MOST_CERTIFICATE {
            let mut five_and_six = five_and_six.words();
            let end = five_and_six.len() - 1;
            five_and_six[end] ^= 1;
            self.check(&five_and_six, 5);
        }
    }

    /// What is faulty in the INITs behind a vote's proposals alone: "where the vote is for v, the
    /// backing of v in INITs with v".
    fn init_faults(&mut self, bundle: &Bundle) {
        let all = &bundle.certificate;
        let (first, group) = all.split_at(quorum(self.n));
        for other in instead_of_inits(self.n, group) {
            self.try_certificate(bundle, [first, &other].concat());
        }
        for third in [group, first] {
            let mut certificate = [&all[..], third].concat();
            certificate.truncate(MOST_CERTIFICATE + 1);
            self.try_certificate(bundle, certificate);
        }
        let mut places = vec![first.len() + 1, all.len()];
        places.dedup();
        for i in places {
            let at = 1 + STATEMENT_WORDS * i;
            let words = bundle.words();
            for word0 in ill_formed_inits(self.n, words[at]) {
                self.check(&with_words(bundle, i, word0, words[at + 1], true), 3);
            }
            for word in [2, STATEMENT_WORDS - 1] {
                let mut words = words.clone();
                words[at + word] ^= 1 << 31;
                self.check(&words, 5);
            }
        }
    }

    /// INITs where no rule wants them: behind q statements, or in place of a second group.
    fn inits_behind(&mut self, bundle: &Bundle) {
        let (n, q) = (self.n, quorum(self.n));
        if bundle.certificate.len() < q {
            return;
        }
        let first = &bundle.certificate[..q];
        let value = bundle.main.value & 1;
        let of_q: Vec<Statement> = some(n, q, false).iter().map(|s| init(*s, value)).collect();
        for group in [inits(n, value, true), inits(n, 1 - value, true), of_q] {
            self.try_certificate(bundle, [first, &group].concat());
        }
    }

    /// Rule 2 at this n: the backing of each value, one INIT fewer and one more.
    fn backings(&mut self) {
        let n = self.n;
        self.author.comment(&format!("n {n}: backings"));
        self.author.set(Command::Raw(GROUP, module_of(n)));
        for value in [0, 1] {
            for (size, expected) in around_backing(n, value) {
                let inits = (1..=size as u32).map(|s| init(s, value)).collect();
                let words = bundle(p(1, 1, value, D), &[inits]).words();
                self.check(&words, expected);
            }
        }
    }

    /// Rule 5 in round 1 at this n: behind the proposals the backing of each value, one INIT fewer
    /// and one more, and none. "Bundles without the group are refused by 6."
    fn backings_of_votes(&mut self) {
        let n = self.n;
        self.author.comment(&format!("n {n}: backings of votes"));
        self.author.set(Command::Raw(GROUP, module_of(n)));
        for value in [0, 1] {
            let proposals = proposals(n, 1, value, &[D], false);
            let mut sizes = vec![(0, 6)];
            sizes.extend(around_backing(n, value));
            sizes.dedup();
            for (size, expected) in sizes {
                let inits = (1..=size as u32).map(|s| init(s, value)).collect();
                let words = bundle(v(1, 1, value), &[proposals.clone(), inits]).words();
                self.check(&words, expected);
            }
        }
    }

    /// The same words at other sizes of the group, in range and out of it, and another key.
    fn other_sizes(&mut self, words: &[u32]) {
        for module in 1..=4 {
            self.case(module, words, Some(2));
            self.case(module, &[], Some(2));
        }
        for module in 5..=8 {
            self.case(module, words, None);
        }
        self.case(9, words, Some(5));
    }

    /// Modules for the checks: only key and n are looked at.
    fn modules(&mut self) {
        let n = self.n;
        let smaller = if n > 2 { n - 1 } else { 3 };
        let sizes = [n, 0, 1, 32, u32::MAX, smaller, n % 31 + 2, 2, 31, n];
        for (register, size) in sizes.into_iter().enumerate() {
            let mut words = module_of(size);
            if register == 9 {
                words[7] ^= 1;
            }
            self.author.set(Command::Raw(register, words));
        }
    }
}

/// Records the checks behind what an author has recorded.
pub fn bundles(author: Author) -> Author {
    let mut cases = Cases { author, n: 0 };
    for n in SIZES {
        cases.n = n;
        cases.modules();
        for (name, bundle) in valid_bundles(n) {
            cases.faults_of(name, &bundle);
        }
    }
    for n in 2..=31 {
        cases.n = n;
        cases.backings();
    }
    for n in 2..=31 {
        cases.n = n;
        cases.backings_of_votes();
    }
    cases.author
}
