//! The library and the original in one process: random, small and damaged inputs, call by call.
mod changes;
mod exclusions;
mod faults;
mod holds;
mod kind;
mod library;
mod negotiation;
mod parts;
mod random;
mod reading;
mod report;
mod request;
mod requests;
mod tables;
mod update;
mod updates;

use kind::{run, unnoticed, Kind};
use report::Tally;

struct Options {
    /// Whether faults are put in, to see that they are noticed.
    faults: bool,
    calls: u64,
    seed: u64,
    kind: Option<String>,
}

fn options() -> Option<Options> {
    let mut o = Options { faults: false, calls: 1_000_000, seed: 1, kind: None };
    let mut args = std::env::args().skip(1);
    while let Some(a) = args.next() {
        if a == "--faults" {
            o.faults = true;
            continue;
        }
        let value = args.next()?;
        match a.as_str() {
            "--calls" => o.calls = value.parse().ok()?,
            "--seed" => o.seed = value.parse().ok()?,
            "--kind" => o.kind = Some(value),
            _ => return None,
        }
    }
    Some(o)
}

macro_rules! kinds {
    ($($kind:ty),* $(,)?) => {
        const NAMES: &[&str] = &[$(<$kind>::NAME),*];
        /// Each kind with its share of the calls, or one with all of them.
        fn tallies(o: &Options) -> Vec<(&'static str, Tally)> {
            let mut out = vec![];
            $(match &o.kind {
                None => out.push((<$kind>::NAME, run::<$kind>(o.calls * <$kind>::SHARE / 1000, o.seed))),
                Some(name) if name == <$kind>::NAME => out.push((<$kind>::NAME, run::<$kind>(o.calls, o.seed))),
                Some(_) => {}
            })*
            out
        }
        fn all_unnoticed(o: &Options) -> (usize, Vec<faults::Fault>) {
            let mut all = (0, vec![]);
            $(if o.kind.is_none() && <$kind>::ALL.is_none() || o.kind.as_deref() == Some(<$kind>::NAME) {
                let (n, left) = unnoticed::<$kind>(2_000, o.seed);
                all.0 += n;
                all.1.extend(left);
            })*
            all
        }
    };
}
kinds!(
    update::Any,
    update::Damaged,
    update::Small,
    negotiation::Negotiation,
    holds::OfHolds,
    holds::Small,
    exclusions::OfExclusions,
    exclusions::Small,
    requests::FundingCell,
    requests::TokenPick,
    requests::Base,
    requests::SmallBase,
    reading::Reading,
    reading::CaseFile,
);

fn main() {
    let known = |o: &Options| o.kind.as_ref().is_none_or(|k| NAMES.contains(&k.as_str()));
    let Some(o) = options().filter(known) else {
        eprintln!("compare [--faults] [--calls N] [--seed S] [--kind {}]", NAMES.join("|"));
        std::process::exit(2);
    };
    // Panics of the original are answers, or shown with the input; our own are not.
    std::panic::set_hook(Box::new(|p| {
        if p.location().is_some_and(|l| l.file().contains("compare")) {
            eprintln!("{p}");
        }
    }));
    if o.faults {
        let (n, left) = all_unnoticed(&o);
        left.iter().for_each(|f| println!("not noticed: {f:?}"));
        println!("{n} faults put into the answers, {} not noticed", left.len());
        std::process::exit(!left.is_empty() as i32);
    }
    let started = std::time::Instant::now();
    let tallies = tallies(&o);
    let mut all = Tally::default();
    tallies.iter().for_each(|(_, t)| all.join(t));
    Tally::head();
    tallies.iter().for_each(|(name, t)| t.line(name));
    all.line("all");
    println!("\nby number, of those that do not disagree:");
    tallies.iter().for_each(|(name, t)| t.numbers(name));
    all.numbers("all");
    println!();
    all.others();
    println!("{} calls, {} disagreements, seed {}, {:.0} s", all.calls, all.wrong, o.seed, started.elapsed().as_secs_f64());
    if all.wrong > 0 {
        std::process::exit(1);
    }
}
