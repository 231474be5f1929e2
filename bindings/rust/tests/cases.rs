//! The case files of the examples: the program and the library give the recorded line.
mod common;

use basinpantry::{
    CaseFile, List, MAX_TRANSACTION_BYTES, Refusal, Transaction, check_case, item, item_count, items, rewrite, version, write_transaction,
};
use common::{cases, run};

#[test]
fn lines_of_the_program() {
    for (path, _, line) in cases() {
        let path = path.to_str().unwrap();
        let ran = run(&["check", "--line", path]);
        let status = i32::from(!line.starts_with("0 "));
        assert_eq!((ran.status, ran.out, ran.err), (status, line.clone(), String::new()), "{path}");
        let ran = run(&["check", path]);
        assert_eq!(ran.status, status, "{path}");
        let number = line.split_whitespace().next().unwrap();
        let start = if status == 0 { "accepted: ".to_string() } else { format!("refused ({number}): ") };
        assert!(ran.out.starts_with(&start), "{path}: {}", ran.out);
    }
}

#[test]
fn lines_of_the_library() {
    for (path, bytes, line) in cases() {
        assert_eq!(check_case(&bytes), line, "{path:?}");
        let case = CaseFile::from_bytes(&bytes).unwrap();
        assert_eq!(case.to_bytes().unwrap(), bytes, "{path:?}");
        let judged = match case.judge() {
            Ok(accepted) => format!("0 {:032x}\n", accepted.capacity),
            Err(why) => {
                let values: String = why.values().iter().map(|value| format!(" {value}")).collect();
                format!("{}{values}\n", why.number())
            }
        };
        assert_eq!(judged, line, "{path:?}");
    }
}

/// What is read and written here is what the proved readers and the proved writer give.
#[test]
fn transactions_are_written_as_they_are_read() {
    let mut transactions: Vec<Vec<u8>> = cases().iter().map(|(_, bytes, _)| CaseFile::from_bytes(bytes).unwrap().peer).collect();
    for name in ["one_output.tx", "token_output.tx"] {
        transactions.push(std::fs::read(common::examples().join(name)).unwrap());
    }
    for bytes in transactions {
        let tx = Transaction::from_bytes(&bytes).unwrap();
        assert_eq!(tx.to_bytes(), bytes);
        assert_eq!(write_transaction(&tx), Ok(bytes.clone()));
        assert_eq!(rewrite(&bytes), Ok(bytes.clone()));
        assert_eq!(version(&bytes), Some(tx.version));
        let count = |list| item_count(&bytes, list).unwrap();
        let each = |list| (0..count(list)).map(|i| item(&bytes, list, i).unwrap().unwrap()).collect::<Vec<_>>();
        let items = |list| {
            let all = items(&bytes, list).unwrap();
            assert_eq!(all, each(list));
            all.into_iter().map(<[u8]>::to_vec).collect::<Vec<_>>()
        };
        assert_eq!(items(List::CellDeps), tx.cell_deps.iter().map(|dep| dep.to_bytes().to_vec()).collect::<Vec<_>>());
        assert_eq!(items(List::HeaderDeps), tx.header_deps.iter().map(|hash| hash.as_ref().to_vec()).collect::<Vec<_>>());
        assert_eq!(items(List::Inputs), tx.inputs.iter().map(|input| input.to_bytes().to_vec()).collect::<Vec<_>>());
        assert_eq!(items(List::Outputs), tx.outputs.iter().map(|output| output.to_bytes()).collect::<Vec<_>>());
        assert_eq!(items(List::OutputsData), tx.outputs_data);
        assert_eq!(items(List::Witnesses), tx.witnesses);
        assert_eq!(item(&bytes, List::Witnesses, tx.witnesses.len()), Ok(None));
    }
    assert_eq!((item_count(&[], List::Inputs), item(&[], List::Inputs, 0)), (None, Err(Refusal::OurTransactionUnreadable)));
    assert_eq!((version(&[]), items(&[], List::Inputs)), (None, None));
}

/// A transaction may be longer than what the library writes; an item of it that is so too is refused, and not said to be missing.
#[test]
fn items_that_are_too_long() {
    let witness = |n: usize| Transaction { witnesses: vec![vec![7; n]], ..Transaction::default() }.to_bytes();
    let long = witness(140_000);
    assert_eq!(item_count(&long, List::Witnesses), Some(1));
    assert_eq!(item(&long, List::Witnesses, 0), Err(Refusal::BufferTooShort));
    assert_eq!(item(&long, List::Witnesses, 1), Ok(None));
    assert_eq!(items(&long, List::Witnesses), Some(vec![&[7; 140_000][..]]));
    assert_eq!(Transaction::from_bytes(&long).unwrap().witnesses, [vec![7; 140_000]]);
    assert_eq!(item(&witness(MAX_TRANSACTION_BYTES), List::Witnesses, 0), Ok(Some(vec![7; MAX_TRANSACTION_BYTES])));
    assert_eq!(item(&witness(MAX_TRANSACTION_BYTES + 1), List::Witnesses, 0), Err(Refusal::BufferTooShort));
}

/// Cut anywhere or with any byte changed, a case file is judged or refused, by the library and by the reader here alike.
#[test]
fn damaged_case_files() {
    let (_, whole, _) = cases().into_iter().find(|(path, ..)| path.ends_with("our_lock.case")).unwrap();
    let number = |file: &[u8]| check_case(file).split_whitespace().next().unwrap().to_string();
    let judged = |file: &[u8]| match CaseFile::from_bytes(file) {
        Ok(case) => case.judge().err().map_or(0, |why| why.number()),
        Err(_) => 3,
    };
    for end in 0..whole.len() {
        // where whole records are cut off, there are too few
        assert_eq!(number(&whole[..end]), "3", "{end}");
        assert_eq!(judged(&whole[..end]), 3, "{end}");
    }
    for at in 0..whole.len() {
        for change in [1, 0x10, 0x80, 0xff] {
            let mut file = whole.clone();
            file[at] ^= change;
            assert_eq!(number(&file), judged(&file).to_string(), "{at} {change}");
        }
    }
}

#[test]
fn where_a_case_file_breaks() {
    let first = cases().into_iter().find(|(path, ..)| path.ends_with("first.case")).unwrap().1;
    let complaint = |file: &[u8]| CaseFile::from_bytes(file).unwrap_err().to_string();
    let cut = |end: usize| complaint(&first[..end]);
    assert_eq!(cut(0), "byte 0: an item of kind 2 (the peer's transaction) is expected here, and the file ends");
    assert_eq!(cut(3), "byte 0: an item begins with a word of 4 bytes, and the file ends within it");
    assert_eq!(cut(100), "byte 0: the peer's transaction has a length of 201 bytes, and the file ends 96 bytes after its word");
    assert_eq!(cut(206), "byte 206: the padding to 4 bytes is missing");
    assert_eq!(cut(208), "byte 208: an item of kind 3 (the expected funding lock) is expected here, and the file ends");
    assert_eq!(cut(first.len() - 4), "byte 424: an item of kind 8 (the data of a cell) is expected here, and the file ends");
    let with = |at: usize, b: u8| {
        let mut file = first.clone();
        file[at] = b;
        complaint(&file)
    };
    assert_eq!(with(207, 1), "byte 205: the padding to 4 bytes is not zero");
    assert_eq!(with(211, 0x50), "byte 208: an item of kind 3 (the expected funding lock) is expected here, and this is of kind 5");
    let mut file = first.clone();
    file.extend([1, 0, 0, 0x90, 0, 0, 0, 0]);
    assert_eq!(complaint(&file), "byte 428: a cell that is not live has no bytes");
    file.truncate(428);
    file.extend([0, 0, 0, 0]);
    assert_eq!(complaint(&file), "byte 428: an item of kind 7 (the output of a cell) is expected here, and this is of kind 0");
}
