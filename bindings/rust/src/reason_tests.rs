//! Each line of the rules' table alone: the number is the library's, the reason in words ours. The cases are those of tools/cases.py.
use super::judge;
use crate::*;

/// The number that the checks here come to, 0 for an acceptance.
fn number_here(case: &CaseFile) -> u32 {
    judge(case.ours.as_deref(), &case.lock, case.udt.as_deref(), &case.update(&case.records_bytes())).err().map_or(0, |(number, _)| number)
}

/// What is said of a case: accepted or, with the number, the reason.
fn verdict(case: &CaseFile, answer: &Result<Accepted, Refusal>) -> String {
    match answer {
        Ok(accepted) => format!("accepted: {} {}", accepted.capacity, accepted.token),
        Err(why) => format!("{}: {}", why.number(), case.reason(why).unwrap_or_else(|| why.to_string())),
    }
}

fn script(b: u8) -> Script {
    Script { code_hash: H256([b; 32]), hash_type: HashType::DATA, args: vec![] }
}

fn output(lock: u8, udt: Option<u8>, capacity: u64) -> CellOutput {
    CellOutput { capacity, lock: script(lock), type_: udt.map(script) }
}

fn plain(capacity: u64) -> CellOutput {
    output(0, None, capacity)
}

fn token(capacity: u64) -> CellOutput {
    output(0, Some(2), capacity)
}

fn point(index: u32) -> OutPoint {
    OutPoint { tx_hash: H256([0; 32]), index }
}

fn inputs(from: u32, to: u32) -> Vec<CellInput> {
    (from..to).map(|i| CellInput { since: 0, previous_output: point(i) }).collect()
}

fn amount(n: u128) -> Vec<u8> {
    n.to_le_bytes().to_vec()
}

fn spending(inputs: Vec<CellInput>, outputs: Vec<CellOutput>, outputs_data: Vec<Vec<u8>>) -> Transaction {
    Transaction { inputs, outputs, outputs_data, ..Transaction::default() }
}

fn with_outputs(outputs: Vec<CellOutput>, outputs_data: Vec<Vec<u8>>) -> Transaction {
    spending(inputs(0, 1), outputs, outputs_data)
}

fn usual() -> Transaction {
    with_outputs(vec![plain(100)], vec![vec![]])
}

fn holding(n: u128) -> Transaction {
    with_outputs(vec![token(100)], vec![amount(n)])
}

fn cell(output: CellOutput, data: Vec<u8>) -> Option<CaseRecord> {
    Some(CaseRecord { output: output.to_bytes(), data })
}

fn brings(capacity: u64) -> Option<CaseRecord> {
    cell(plain(capacity), vec![])
}

fn case(ours: Option<Transaction>, peer: Transaction, records: Vec<Option<CaseRecord>>) -> CaseFile {
    CaseFile {
        ours: ours.map(|tx| tx.to_bytes()),
        peer: peer.to_bytes(),
        lock: script(0).to_bytes(),
        udt: None,
        source: script(1).to_bytes(),
        rate: 1000,
        records,
    }
}

fn typed(ours: Option<Transaction>, peer: Transaction, records: Vec<Option<CaseRecord>>) -> CaseFile {
    CaseFile { udt: Some(script(2).to_bytes()), ..case(ours, peer, records) }
}

fn deps(indices: &[u32]) -> Transaction {
    let cell_deps = indices.iter().map(|i| CellDep { out_point: point(*i), dep_type: DepType::CODE }).collect();
    Transaction { cell_deps, ..usual() }
}

fn headers(hashes: &[u8]) -> Transaction {
    Transaction { header_deps: hashes.iter().map(|b| H256([*b; 32])).collect(), ..usual() }
}

/// A line of the table, a case in which it alone fails, and what is said of it.
fn lines() -> Vec<(&'static str, CaseFile, &'static str)> {
    const TOP: u128 = u128::MAX;
    let itself = || case(Some(usual()), usual(), vec![]);
    let two = |a, b| with_outputs(vec![plain(100), plain(7)], vec![vec![], vec![a, b]]);
    let lengthened = |mut bytes: Vec<u8>| {
        bytes.push(0);
        bytes
    };
    let long = Transaction { witnesses: vec![vec![0; 133_116 - 201 - 8 + 1]], ..usual() };
    vec![
        ("itself", itself(), "accepted: 0 0"),
        (
            "tokens left",
            typed(Some(holding(5)), spending(inputs(0, 2), vec![token(100)], vec![amount(6)]), vec![cell(token(9), amount(TOP))]),
            "accepted: 9 340282366920938463463374607431768211454",
        ),
        (
            "our_bytes",
            CaseFile { ours: Some(lengthened(usual().to_bytes())), ..itself() },
            "1: our own transaction's bytes are no transaction",
        ),
        ("peer_bytes", CaseFile { peer: lengthened(usual().to_bytes()), ..itself() }, "2: the peer's bytes are no transaction"),
        ("lock", CaseFile { lock: vec![], ..itself() }, "3: the expected funding lock is no script"),
        ("type", CaseFile { udt: Some(vec![0]), ..itself() }, "3: the expected token type is no script"),
        ("source", CaseFile { source: vec![], ..itself() }, "3: our source lock is no script"),
        ("size", case(None, long, vec![brings(1_000_000)]), "4: its size is 133121, over 133,120"),
        (
            "inputs_65",
            case(None, spending(inputs(0, 65), vec![plain(100)], vec![vec![]]), vec![brings(200_000); 65]),
            "4: it adds 65 inputs, and 64 are allowed",
        ),
        (
            "outputs_4",
            case(None, with_outputs(vec![plain(100); 4], vec![vec![]; 4]), vec![brings(200_000)]),
            "4: it adds 4 outputs, and 3 are allowed",
        ),
        ("deps_9", case(None, deps(&[0, 1, 2, 3, 4, 5, 6, 7, 8]), vec![brings(200_000)]), "4: it adds 9 cell deps, and 8 are allowed"),
        ("headers_3", case(None, headers(&[0, 1, 2]), vec![brings(200_000)]), "4: it adds 3 header deps, and 2 are allowed"),
        ("version", case(Some(usual()), Transaction { version: 1, ..usual() }, vec![]), "5: its version is 1, and ours is 0"),
        ("fewer_deps", case(Some(deps(&[0, 0])), deps(&[0]), vec![]), "5: it has 1 cell dep, and ours has 2"),
        ("dep_missing", case(Some(deps(&[0])), deps(&[1]), vec![]), "5: our cell dep 0 is missing"),
        ("fewer_headers", case(Some(headers(&[0])), headers(&[]), vec![]), "5: it has 0 header deps, and ours has 1"),
        ("header_differs", case(Some(headers(&[0])), headers(&[1]), vec![]), "5: header dep 0 is not ours"),
        (
            "fewer_inputs",
            case(Some(spending(inputs(0, 2), vec![plain(100)], vec![vec![]])), usual(), vec![]),
            "5: it has 1 input, and ours has 2",
        ),
        ("input_differs", case(Some(usual()), spending(inputs(1, 2), vec![plain(100)], vec![vec![]]), vec![]), "5: input 0 is not ours"),
        (
            "fewer_outputs",
            case(Some(two(0, 0)), with_outputs(vec![plain(100)], vec![vec![], vec![0, 0]]), vec![]),
            "5: it has 1 output, and ours has 2",
        ),
        (
            "output_0_lock",
            case(Some(usual()), with_outputs(vec![output(3, None, 100)], vec![vec![]]), vec![]),
            "5: the lock of output 0 is not the expected funding lock",
        ),
        (
            "output_0_type",
            case(Some(usual()), with_outputs(vec![token(100)], vec![vec![]]), vec![]),
            "5: output 0 has a type, and none is expected",
        ),
        (
            "output_0_untyped",
            typed(Some(holding(0)), with_outputs(vec![plain(100)], vec![amount(0)]), vec![]),
            "5: output 0 has no type, and the token's is expected",
        ),
        (
            "output_0_another_type",
            typed(Some(holding(0)), with_outputs(vec![output(0, Some(3), 100)], vec![amount(0)]), vec![]),
            "5: the type of output 0 is not the expected token's",
        ),
        (
            "output_0_data",
            case(Some(usual()), with_outputs(vec![plain(100)], vec![vec![1]]), vec![]),
            "5: output 0 is untyped, and has 1 byte of data",
        ),
        (
            "output_differs",
            case(Some(two(0, 0)), with_outputs(vec![plain(100), plain(8)], vec![vec![], vec![0, 0]]), vec![]),
            "5: output 1 is not ours",
        ),
        (
            "fewer_entries",
            case(Some(with_outputs(vec![plain(100)], vec![vec![], vec![]])), usual(), vec![]),
            "5: it has 1 data entry, and ours has 2",
        ),
        ("entry_differs", case(Some(two(0, 1)), two(0, 2), vec![]), "5: the data of output 1 is not ours"),
        (
            "record_unreadable",
            case(
                Some(usual()),
                spending(inputs(0, 2), vec![plain(100)], vec![vec![]]),
                vec![Some(CaseRecord { output: vec![0], data: vec![] })],
            ),
            "3: record 0 is no output with data",
        ),
        ("record_count", case(Some(usual()), usual(), vec![brings(5)]), "3: 0 inputs were added, and 1 record was lent"),
        (
            "not_live",
            case(Some(usual()), spending(inputs(0, 2), vec![plain(100)], vec![vec![]]), vec![None]),
            "5: the cell of input 1 is not live",
        ),
        (
            "under_our_lock",
            case(Some(usual()), spending(inputs(0, 2), vec![plain(100)], vec![vec![]]), vec![cell(output(1, None, 5), vec![])]),
            "6: an input that the peer added spends a cell under our own source lock: input 1",
        ),
        ("output_0_missing", case(None, with_outputs(vec![], vec![vec![]]), vec![brings(1000)]), "5: output 0 is missing"),
        (
            "entry_0_missing",
            case(None, with_outputs(vec![plain(100)], vec![]), vec![brings(1000)]),
            "5: the data entry of output 0 is missing",
        ),
        (
            "capacity_falls",
            case(Some(usual()), with_outputs(vec![plain(99)], vec![vec![]]), vec![]),
            "5: the capacity of output 0 falls from 100 to 99 shannons",
        ),
        (
            "our_amount_short",
            typed(Some(with_outputs(vec![token(100)], vec![vec![]])), holding(0), vec![]),
            "5: our output 0 has under 16 bytes of data, so no token amount",
        ),
        (
            "peer_amount_short",
            typed(None, with_outputs(vec![token(100)], vec![vec![]]), vec![brings(1000)]),
            "5: output 0 has under 16 bytes of data, so no token amount",
        ),
        ("amount_falls", typed(Some(holding(5)), holding(4), vec![]), "5: the tokens of output 0 fall from 5 to 4"),
        (
            "inputs_below",
            case(Some(usual()), with_outputs(vec![plain(101)], vec![vec![]]), vec![]),
            "5: it puts in 0 shannons, 1 below the growth of output 0 and the outputs that it added",
        ),
        (
            "fee",
            case(None, usual(), vec![brings(304)]),
            "8: the fee is too low: 204 shannons are paid and 205 are required, at a rate of 1000 shannons per 1000 bytes and a size of 205 bytes",
        ),
        (
            "record_amount_short",
            typed(Some(holding(5)), spending(inputs(0, 2), vec![token(100)], vec![amount(5)]), vec![cell(token(7), vec![])]),
            "5: the cell of input 1 has under 16 bytes of data, so no token amount",
        ),
        (
            "records_total",
            typed(
                Some(holding(5)),
                spending(inputs(0, 3), vec![token(100)], vec![amount(5)]),
                vec![cell(token(7), amount(TOP)), cell(token(7), amount(1))],
            ),
            "7: the tokens of the added inputs come to 2^128 or more",
        ),
        (
            "output_amount_short",
            typed(Some(holding(5)), spending(inputs(0, 2), vec![token(100), token(7)], vec![amount(5), vec![]]), vec![brings(7)]),
            "5: output 1 has under 16 bytes of data, so no token amount",
        ),
        (
            "outputs_total",
            typed(
                Some(holding(5)),
                spending(inputs(0, 2), vec![token(100), token(7), token(7)], vec![amount(5), amount(TOP), amount(1)]),
                vec![brings(14)],
            ),
            "7: the tokens of the added outputs come to 2^128 or more",
        ),
        (
            "growth_total",
            typed(Some(holding(5)), spending(inputs(0, 2), vec![token(100), token(7)], vec![amount(6), amount(TOP)]), vec![brings(7)]),
            "7: the token growth of output 0 and the added outputs come to 2^128 or more",
        ),
        (
            "tokens_below",
            typed(Some(holding(5)), holding(6), vec![]),
            "5: it puts in 0 tokens, 1 below the growth of output 0 and the outputs that it added",
        ),
    ]
}

/// The library's number, 0 for an acceptance.
fn number(answer: &Result<Accepted, Refusal>) -> u32 {
    answer.as_ref().err().map_or(0, Refusal::number)
}

#[test]
fn each_line_alone() {
    for (name, case, sentence) in lines() {
        let answer = case.judge();
        assert_eq!(verdict(&case, &answer), sentence, "{name}");
        assert_eq!(number_here(&case), number(&answer), "{name}");
    }
}

/// Parts of two cases in one, over and over: the reason's number is always the library's.
#[test]
fn parts_of_different_cases() {
    let cases: Vec<CaseFile> = lines().into_iter().map(|(_, case, _)| case).filter(|case| case.peer.len() < 10_000).collect();
    let mut seen = [0; 9];
    for a in &cases {
        for b in &cases {
            for mixed in [
                CaseFile { peer: b.peer.clone(), ..a.clone() },
                CaseFile { ours: b.ours.clone(), ..a.clone() },
                CaseFile { peer: b.peer.clone(), records: b.records.clone(), ..a.clone() },
                CaseFile { udt: b.udt.clone(), ..a.clone() },
            ] {
                let answer = mixed.judge();
                assert_eq!(number_here(&mixed), number(&answer), "{mixed:?}");
                seen[number(&answer) as usize] += 1;
            }
        }
    }
    assert!(seen.iter().all(|count| *count > 0), "{seen:?}");
}
