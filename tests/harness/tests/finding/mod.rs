//! What each mode owes on watchers with one slip each: it finds every one of them.

use std::fmt::Debug;

use harness::exhaustive::{self, Alphabet, Bounds};
use harness::model::Model;
use harness::play::play;
use harness::random;
use harness::watcher::Watcher;

/// Some case of the corpus fails on each slip.
pub fn by_the_corpus<W: Watcher + Debug>(slips: &[W]) {
    let cases = corpus::files::cases(corpus::files::folder()).unwrap();
    for slip in slips {
        let found = cases.iter().any(|case| play(slip, case).is_err());
        assert!(found, "{slip:?} passes the corpus");
    }
}

/// The random mode finds each slip, and makes it a small case that can be read and still fails.
pub fn at_random<W: Watcher + Debug>(slips: &[W], cases: u64) {
    for slip in slips {
        let found = match random::run(slip, 1, 0, cases) {
            Ok(_) => panic!("{slip:?} passes {cases} random cases"),
            Err(found) => found,
        };
        let cases = corpus::files::cases_in("found", &found).unwrap();
        assert_eq!(cases.len(), 1, "{slip:?}: {found}");
        assert!(play(slip, &cases[0]).is_err(), "{slip:?}: {found}");
        assert!(play(&Model, &cases[0]).is_ok(), "{slip:?}: {found}");
        assert!(cases[0].lines.len() <= 12, "{slip:?} is not small: {found}");
    }
}

/// The exhaustive mode finds each slip within these bounds.
pub fn among_all<W: Watcher + Debug>(slips: &[W], alphabet: Alphabet, tokens: usize, bytes: usize) {
    let bounds = Bounds { alphabet, tokens, bytes, part: (0, 1) };
    for slip in slips {
        assert!(exhaustive::run(slip, &Model, bounds).is_err(), "{slip:?}");
    }
}
