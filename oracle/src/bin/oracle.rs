//! Answers of the original: of a case file on standard input, of a folder or a stream of them, or of calls by line.
use oracle::case::{self, LIMIT};
use oracle::original::update::Verdict;
use oracle::standins::molecule::word;
use oracle::{calls, selftest, SOURCES};
use std::io::{BufWriter, Read, Write};

fn main() {
    let args: Vec<String> = std::env::args().skip(1).collect();
    match args.iter().map(String::as_str).collect::<Vec<_>>()[..] {
        [] => {
            let mut b = vec![];
            std::io::stdin().take(LIMIT as u64 + 1).read_to_end(&mut b).unwrap();
            println!("{}", case::run(&b));
        }
        ["--batch", dir] => batch(dir),
        ["--stream"] => stream(),
        ["--calls"] => calls::run(),
        ["--sources"] => SOURCES.iter().for_each(|(p, n, h)| println!("{h} {n} {p}")),
        ["--selftest"] => selftest::run(),
        _ => {
            eprintln!("oracle [--batch FOLDER | --stream | --calls | --sources | --selftest]");
            std::process::exit(2)
        }
    }
}

/// A case file's line, with `panic` behind a tab where the original panics.
fn line(file: &[u8]) -> String {
    let v = case::run(file);
    let mark = if v == Verdict::Panic { "\tpanic" } else { "" };
    format!("{v}{mark}")
}

/// One line for each case file of a folder, in the order of their names: the name, a tab, its line.
fn batch(dir: &str) {
    let paths = std::fs::read_dir(dir).unwrap().map(|e| e.unwrap().path());
    let mut paths: Vec<_> = paths.filter(|p| p.extension().is_some_and(|x| x == "case")).collect();
    paths.sort();
    let mut out = BufWriter::new(std::io::stdout().lock());
    for p in paths {
        let name = p.file_stem().unwrap().to_str().unwrap();
        writeln!(out, "{name}\t{}", line(&std::fs::read(&p).unwrap())).unwrap();
    }
}

/// Case files on standard input, each behind its length in four bytes; one line each.
fn stream() {
    let mut all = vec![];
    std::io::stdin().read_to_end(&mut all).unwrap();
    let mut out = BufWriter::new(std::io::stdout().lock());
    let mut at = 0;
    while at < all.len() {
        let n = word(&all, at);
        writeln!(out, "{}", line(&all[at + 4..at + 4 + n])).unwrap();
        at += 4 + n;
    }
}
