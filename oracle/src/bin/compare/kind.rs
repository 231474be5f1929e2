//! A kind of calls, and how a run over one goes.
use crate::faults;
use crate::random::Rng;
use crate::report::{Outcome, Tally};
use std::panic::{catch_unwind, AssertUnwindSafe};

pub trait Kind {
    type Input: Clone;
    const NAME: &'static str;
    /// The functions of the library that it calls.
    const FUNCTIONS: &'static [&'static str];
    /// Of a thousand calls of a run, how many.
    const SHARE: u64;
    /// How many inputs there are, where all of them are made.
    const ALL: Option<u64> = None;
    /// The n-th input of a run.
    fn make(rng: &mut Rng, n: u64) -> Self::Input;
    /// Makes the calls of an input here and there.
    fn compare(input: &Self::Input) -> Vec<Outcome>;
    /// Inputs with something less.
    fn smaller(input: &Self::Input) -> Vec<Self::Input>;
    fn show(input: &Self::Input) -> String;
}

/// A kind of which all inputs are made, with the calls of another.
macro_rules! all_of {
    ($name:ident, $of:ty, $text:expr, $share:expr, $all:expr, $make:expr) => {
        impl Kind for $name {
            type Input = <$of as Kind>::Input;
            const NAME: &'static str = $text;
            const FUNCTIONS: &'static [&'static str] = <$of as Kind>::FUNCTIONS;
            const SHARE: u64 = $share;
            const ALL: Option<u64> = Some($all);
            fn make(_: &mut Rng, n: u64) -> Self::Input {
                $make(n)
            }
            fn compare(input: &Self::Input) -> Vec<Outcome> {
                <$of>::compare(input)
            }
            fn smaller(input: &Self::Input) -> Vec<Self::Input> {
                <$of>::smaller(input)
            }
            fn show(input: &Self::Input) -> String {
                <$of>::show(input)
            }
        }
    };
}
pub(crate) use all_of;

/// The digits of a number, from the last one on, for choices among so many.
pub struct Digits(pub u64);

impl Digits {
    pub fn below(&mut self, n: usize) -> usize {
        let digit = self.0 % n as u64;
        self.0 /= n as u64;
        digit as usize
    }
    pub fn pick<T: Clone>(&mut self, from: &[T]) -> T {
        from[self.below(from.len())].clone()
    }
}

/// How many disagreements of a kind are shown.
const SHOWN: u64 = 3;

/// What differs in an input, if anything; a panic on either side that no rule expects differs too.
fn wrong<K: Kind>(input: &K::Input) -> Option<String> {
    match catch_unwind(AssertUnwindSafe(|| K::compare(input))) {
        Ok(outcomes) => outcomes.into_iter().find_map(|o| o.wrong),
        Err(p) => Some(match p.downcast::<String>() {
            Ok(text) => *text,
            Err(p) => p.downcast::<&str>().map_or("a panic".into(), |text| text.to_string()),
        }),
    }
}

/// The smallest input found that differs too, by leaving out one thing after the other.
fn shrunk<K: Kind>(mut input: K::Input) -> K::Input {
    let mut tries = 20_000;
    'again: loop {
        for less in K::smaller(&input) {
            tries -= 1;
            if tries == 0 {
                return input;
            }
            if wrong::<K>(&less).is_some() {
                input = less;
                continue 'again;
            }
        }
        return input;
    }
}

/// Puts in each fault of each function that a kind calls: how many there are, and those that are not noticed in so many calls.
pub fn unnoticed<K: Kind>(calls: u64, seed: u64) -> (usize, Vec<faults::Fault>) {
    let all: Vec<_> = K::FUNCTIONS.iter().flat_map(|f| faults::of(f)).collect();
    let noticed = |fault: &faults::Fault| {
        faults::put_in(Some(*fault));
        let mut rng = Rng::new(seed);
        let mut left = calls;
        while left > 0 && wrong::<K>(&K::make(&mut rng, calls - left)).is_none() {
            left -= 1;
        }
        faults::put_in(None);
        left > 0
    };
    (all.len(), all.iter().filter(|f| !noticed(f)).copied().collect())
}

/// So many calls of a kind, from a seed.
pub fn run<K: Kind>(calls: u64, seed: u64) -> Tally {
    let mut tally = Tally::default();
    let mut rng = Rng::new(seed);
    let all = K::ALL.filter(|all| *all <= calls);
    let mut n = 0;
    while all.map_or(tally.calls < calls, |all| n < all) {
        let at = if all.is_some() || K::ALL.is_none() { n } else { rng.below(K::ALL.unwrap() as usize) as u64 };
        n += 1;
        let input = K::make(&mut rng, at);
        match catch_unwind(AssertUnwindSafe(|| K::compare(&input))) {
            Ok(outcomes) if outcomes.iter().all(|o| o.wrong.is_none()) => outcomes.iter().for_each(|o| tally.add(o)),
            _ => {
                tally.calls += 1;
                tally.wrong += 1;
                if tally.wrong <= SHOWN {
                    let least = shrunk::<K>(input);
                    println!("{} DISAGREES: {}\n{}", K::NAME, wrong::<K>(&least).unwrap_or_default(), K::show(&least));
                }
            }
        }
    }
    tally
}
