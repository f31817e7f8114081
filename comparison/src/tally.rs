//! How often each error, success, and each case of note came up in a comparison.

use std::collections::BTreeMap;

use nachricht_sys::Answer;
use reference::Mode;

/// What reading in each mode, writing and canonicalizing can answer, with 0 for success.
const LENIENT: [u64; 9] = [0, 1, 2, 3, 4, 5, 6, 7, 8];
const STRICT: [u64; 10] = [0, 1, 2, 3, 4, 5, 6, 7, 8, 11];
const WRITING: [u64; 10] = [0, 1, 2, 3, 5, 6, 7, 8, 9, 10];
const CANONICALIZING: [u64; 10] = [0, 1, 2, 3, 4, 5, 6, 7, 8, 10];

/// What opening and closing can answer.
const OPENING: [u64; 3] = [0, 12, 13];
const CLOSING: [u64; 3] = [0, 1, 10];

/// What joining can answer for both bundles together, and for each of them.
const TOGETHER: [u64; 4] = [0, 7, 8, 10];
const EACH: [u64; 8] = [1, 2, 3, 4, 5, 6, 7, 8];

/// Answers of one kind of call counted by side and error number, and cases counted by name.
pub struct Tally {
    expected: Vec<(u64, u64)>,
    answers: BTreeMap<(u64, u64), usize>,
    cases: BTreeMap<&'static str, usize>,
}

impl Tally {
    pub fn of_reading(mode: Mode) -> Tally {
        match mode {
            Mode::Lenient => Tally::expecting(&[&LENIENT]),
            Mode::Strict => Tally::expecting(&[&STRICT]),
        }
    }

    pub fn of_writing() -> Tally {
        Tally::expecting(&[&WRITING])
    }

    pub fn of_canonicalizing() -> Tally {
        Tally::expecting(&[&CANONICALIZING])
    }

    pub fn of_joining() -> Tally {
        Tally::expecting(&[&TOGETHER, &EACH, &EACH])
    }

    pub fn of_opening() -> Tally {
        Tally::expecting(&[&OPENING])
    }

    pub fn of_closing() -> Tally {
        Tally::expecting(&[&CLOSING])
    }

    /// Expects these error numbers for side 0, side 1 and so on.
    fn expecting(sides: &[&[u64]]) -> Tally {
        let mut expected = Vec::new();
        for (side, errors) in (0..).zip(sides) {
            expected.extend(errors.iter().map(|error| (side, *error)));
        }
        Tally {
            expected,
            answers: BTreeMap::new(),
            cases: BTreeMap::new(),
        }
    }

    pub fn add(&mut self, answer: Answer) {
        *self.answers.entry((answer.side, answer.error)).or_default() += 1;
    }

    /// Looks out for a case, which has to come up in one call or another.
    pub fn look_for(&mut self, case: &'static str, is_here: bool) {
        *self.cases.entry(case).or_default() += usize::from(is_here);
    }

    /// Panics unless all that was expected came up, and success more than once in five.
    pub fn assert_complete(&self) {
        let errors = self.answers.keys().copied().collect::<Vec<_>>();
        assert_eq!(errors, self.expected, "sides and errors that came up");
        let (good, all) = (self.answers[&(0, 0)], self.answers.values().sum::<usize>());
        assert!(good * 5 > all, "only {good} of {all} inputs are good");
        for (case, count) in &self.cases {
            assert!(*count > 0, "never came up: {case}");
        }
    }
}
