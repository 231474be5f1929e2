//! No file stops the program: the examples, each with some bytes changed, moved or cut off.
use crate::files::Input;
use crate::json_output;
use crate::make_case::{Parts, make_file};
use crate::replay_cases::Replayed;
use crate::show::Shown;
use std::path::Path;

/// Numbers that look random and are the same in each run.
struct Numbers(u64);

impl Numbers {
    fn below(&mut self, n: usize) -> usize {
        self.0 ^= self.0 << 13;
        self.0 ^= self.0 >> 7;
        self.0 ^= self.0 << 17;
        (self.0 % n.max(1) as u64) as usize
    }
}

fn example(name: &str) -> Input {
    let path = Path::new(env!("CARGO_MANIFEST_DIR")).join("../../examples").join(name);
    Input { name: name.to_string(), bytes: std::fs::read(path).expect("an example") }
}

/// The file with a damage.
fn damaged(file: &Input, numbers: &mut Numbers) -> Input {
    let mut bytes = file.bytes.clone();
    for _ in 0..=numbers.below(3) {
        let at = numbers.below(bytes.len());
        match numbers.below(6) {
            0 => bytes.truncate(at),
            1 if !bytes.is_empty() => bytes[at] = numbers.below(256) as u8,
            2 if !bytes.is_empty() => bytes[at] ^= 1 << numbers.below(8),
            3 => bytes.insert(at, b"\"{}[],:0x\\u\xff"[numbers.below(12)]),
            4 => {
                let end = (at + numbers.below(40)).min(bytes.len());
                bytes.drain(at..end);
            }
            _ => {
                let part = bytes[at..(at + numbers.below(40)).min(bytes.len())].to_vec();
                let to = numbers.below(bytes.len());
                bytes.splice(to..to, part);
            }
        }
    }
    Input { name: file.name.clone(), bytes }
}

#[test]
fn shown_or_complained_of() {
    let mut numbers = Numbers(1);
    let names = ["cases/our_lock.case", "cases/token_total.case", "one_output.tx", "token_output.tx", "json/ours.json", "json/peer.json"];
    let mut shown = 0;
    for name in names {
        let file = example(name);
        assert!(Shown::of(&file).is_ok(), "{name}");
        for _ in 0..1500 {
            let file = damaged(&file, &mut numbers);
            match Shown::of(&file) {
                Ok(found) => {
                    assert!(!found.tables(numbers.below(2) == 0).is_empty());
                    assert!(basinpantry::json::is_json(json_output::shown(&found)));
                    shown += 1;
                }
                Err(why) => assert!(why.0.starts_with(name), "{}", why.0),
            }
            let _ = Replayed::of(&[file, example("cases/first.case")]);
        }
    }
    assert!(shown > 100);
}

#[test]
fn made_or_complained_of() {
    let mut numbers = Numbers(2);
    let names = ["ours", "peer", "funding_lock", "token_type", "source_lock", "records"].map(|name| format!("json/{name}.json"));
    for _ in 0..3000 {
        let which = numbers.below(names.len());
        let mut file = |i: usize| {
            let file = example(&names[i]);
            if i == which { damaged(&file, &mut numbers) } else { file }
        };
        let parts = Parts {
            ours: Some(file(0)),
            peer: file(1),
            lock: file(2),
            udt: Some(file(3)),
            source: file(4),
            rate: 1000,
            records: Some(file(5)),
        };
        match make_file(&parts) {
            Ok((bytes, _)) => {
                let case = basinpantry::CaseFile::from_bytes(&bytes).expect("a case file");
                let _ = case.judge();
            }
            // that a record is not of the input shows at the record, though the transaction may be what is damaged
            Err(why) => assert!(why.0.starts_with(&names[which]) || why.0.contains("this record is of"), "{}", why.0),
        }
    }
}
