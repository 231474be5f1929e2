//! The program `basinpantry`: judges, makes and shows case files.
#![deny(unsafe_code)]
mod arguments;
mod case_parts;
#[cfg(test)]
mod damage_tests;
mod files;
mod help;
mod json_output;
mod make_case;
mod notes;
mod output;
mod replay_cases;
mod show;
mod table;
mod words;

use arguments::{Arguments, usage};
use basinpantry::{CaseFile, MAX_CASE_BYTES, check_case};
use files::Failure;
use make_case::Parts;
use output::Output;
use replay_cases::Replayed;
use show::Shown;
use std::ffi::{OsStr, OsString};
use std::io::Write;
use std::process::ExitCode;

/// A command of the program, by the words after its name.
type Command = fn(&[OsString]) -> Result<Done, Failure>;

/// What a command prints, and its exit status.
struct Done {
    out: Vec<u8>,
    notes: Vec<String>,
    status: u8,
}

fn printed(text: impl Into<String>, status: u8) -> Done {
    Done { out: text.into().into_bytes(), notes: Vec::new(), status }
}

/// The verdict on a case, in a sentence or in JSON.
fn judged(case: &CaseFile, json: bool, notes: Vec<String>) -> Done {
    let answer = case.judge();
    let text = if json { json_output::verdict(case, &answer) } else { words::verdict(case, &answer) };
    Done { out: (text + "\n").into_bytes(), notes, status: u8::from(answer.is_err()) }
}

fn check(words: &[OsString]) -> Result<Done, Failure> {
    let arguments = Arguments::read("check", words, &["--line", "--json"], &[])?;
    if arguments.has("--line") && arguments.has("--json") {
        return usage("check", "--line and --json can't both be printed");
    }
    let file = arguments.one_file()?;
    if arguments.has("--line") {
        let line = check_case(&file.bytes);
        let judged = file.bytes.len() <= MAX_CASE_BYTES && CaseFile::from_bytes(&file.bytes).is_ok();
        let status = if judged { u8::from(!line.starts_with("0 ")) } else { 2 };
        return Ok(printed(line, status));
    }
    Ok(judged(&file.case()?, arguments.has("--json"), Vec::new()))
}

fn judge(words: &[OsString]) -> Result<Done, Failure> {
    let arguments = Arguments::read("judge", words, &["--json"], &PARTS)?;
    let (case, notes) = make_case::make(&parts("judge", &arguments)?)?;
    Ok(judged(&case, arguments.has("--json"), notes))
}

/// The options that name the parts of a case.
const PARTS: [&str; 7] = ["--ours", "--peer", "--lock", "--type", "--source", "--rate", "--records"];

/// The parts of a case that the arguments name.
fn parts(command: &str, arguments: &Arguments) -> Result<Parts, Failure> {
    if let Some(word) = arguments.rest.first() {
        return usage(command, format!("{} belongs to no option", word.to_string_lossy()));
    }
    let Some(rate) = arguments.number("--rate")? else { return usage(command, "--rate is missing") };
    Ok(Parts {
        ours: arguments.file("--ours")?,
        peer: arguments.needed("--peer")?,
        lock: arguments.needed("--lock")?,
        udt: arguments.file("--type")?,
        source: arguments.needed("--source")?,
        rate,
        records: arguments.file("--records")?,
    })
}

fn make(words: &[OsString]) -> Result<Done, Failure> {
    let arguments = Arguments::read("case", words, &[], &[&PARTS[..], &["-o"]].concat())?;
    let name = arguments.option("-o").unwrap_or(OsStr::new("-")).to_string_lossy();
    let output = Output::of(arguments.option("-o")).map_err(|why| Failure(format!("{name}: {why}")))?;
    if let Some((option, _)) = arguments.inputs().find(|(_, path)| output.is_file_of(path)) {
        return usage("case", format!("-o is the file of {option}, which would be overwritten"));
    }
    if output.is_terminal() {
        return usage("case", "a case file is no text for a terminal: name a file with -o, or send it into a pipe");
    }
    // whoever goes on with the file after a failure goes on with an old one
    let still_there = |Failure(why)| match output.is_old_file() {
        true => Failure(format!("{why}\nbasinpantry: note: the old {name} is still there")),
        false => Failure(why),
    };
    let (bytes, mut notes) = parts("case", &arguments).and_then(|parts| make_case::make_file(&parts)).map_err(still_there)?;
    if let Some(why) = output.write(&bytes).map_err(|why| output::not_written(&name, &why, &output))? {
        notes.push(format!("{name} is written, and may not outlast a power cut: {why}"));
    }
    match output {
        Output::Standard => Ok(Done { out: bytes, notes, status: 0 }),
        _ => Ok(Done { out: plain(&format!("{name}: {} bytes\n", bytes.len())).into_bytes(), notes, status: 0 }),
    }
}

fn show(words: &[OsString]) -> Result<Done, Failure> {
    let arguments = Arguments::read("show", words, &["--full", "--json"], &[])?;
    let shown = Shown::of(&arguments.one_file()?)?;
    Ok(printed(if arguments.has("--json") { json_output::shown(&shown) + "\n" } else { shown.tables(arguments.has("--full")) }, 0))
}

fn replay(words: &[OsString]) -> Result<Done, Failure> {
    let arguments = Arguments::read("replay", words, &["--json"], &[])?;
    let files = arguments.files()?;
    let replayed = Replayed::of(&files)?;
    let json = arguments.has("--json");
    let text = if json { json_output::replayed(&files, &replayed) + "\n" } else { replayed.sentences(&files) };
    Ok(printed(text, u8::from(!replayed.all_accepted())))
}

/// A command by its name, with its help.
fn command_of(name: &OsStr) -> Result<(&'static str, Command), Failure> {
    match &*name.to_string_lossy() {
        "check" => Ok((help::CHECK, check)),
        "judge" => Ok((help::JUDGE, judge)),
        "case" => Ok((help::CASE, make)),
        "show" => Ok((help::SHOW, show)),
        "replay" => Ok((help::REPLAY, replay)),
        other => Err(Failure(format!("there is no command {other}; try: basinpantry --help"))),
    }
}

fn run(command: &OsStr, rest: &[OsString]) -> Result<Done, Failure> {
    let asks_for_help = rest.iter().take_while(|word| *word != "--").any(|word| word == "--help" || word == "-h");
    match (&*command.to_string_lossy(), rest) {
        ("help", [name, ..]) => Ok(printed(command_of(name)?.0, 0)),
        ("--help" | "-h" | "help", _) => Ok(printed(help::HELP, 0)),
        ("--version" | "-V", _) => Ok(printed(concat!("basinpantry ", env!("CARGO_PKG_VERSION"), "\n"), 0)),
        _ => {
            let (help, command) = command_of(command)?;
            if asks_for_help { Ok(printed(help, 0)) } else { command(rest) }
        }
    }
}

/// What is printed has a file's name in it as it is: nothing of that steers a terminal.
fn plain(text: &str) -> String {
    text.chars().map(|c| if c.is_control() && c != '\n' { char::REPLACEMENT_CHARACTER } else { c }).collect()
}

fn main() -> ExitCode {
    let words: Vec<OsString> = std::env::args_os().skip(1).collect();
    // what can't be printed any more is nobody's to read: no panic for it, but a status
    let complain = |why: &str| {
        let _ = writeln!(std::io::stderr(), "basinpantry: {}", plain(why));
        ExitCode::from(2)
    };
    let Some((command, rest)) = words.split_first() else {
        let _ = std::io::stderr().write_all(help::HELP.as_bytes());
        return ExitCode::from(2);
    };
    match run(command, rest) {
        Err(Failure(why)) => complain(&why),
        Ok(done) => {
            for note in &done.notes {
                let _ = writeln!(std::io::stderr(), "basinpantry: note: {}", plain(note));
            }
            let mut stdout = std::io::stdout().lock();
            match stdout.write_all(&done.out).and_then(|()| stdout.flush()) {
                Ok(()) => ExitCode::from(done.status),
                // whoever reads has seen enough, unless it is a case file, of which every byte is wanted
                Err(why) if why.kind() == std::io::ErrorKind::BrokenPipe && command != "case" => ExitCode::from(done.status),
                Err(why) => complain(&format!("standard output: {why}")),
            }
        }
    }
}
