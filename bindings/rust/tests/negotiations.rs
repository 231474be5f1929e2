//! Lists of updates: one call judges them as the calls one by one do, and the sums may pass 2^128.
mod common;

use basinpantry::*;

fn script(b: u8) -> Script {
    Script { code_hash: H256([b; 32]), ..Script::default() }
}

fn token_output(capacity: u64) -> CellOutput {
    CellOutput { capacity, lock: script(0), type_: Some(script(2)) }
}

/// Output 0 with 100 shannons and 5 tokens, over so many inputs.
fn holding(inputs: u32) -> Vec<u8> {
    let input = |index| CellInput { since: 0, previous_output: OutPoint { tx_hash: H256([0; 32]), index } };
    Transaction {
        inputs: (0..inputs).map(input).collect(),
        outputs: vec![token_output(100)],
        outputs_data: vec![5u128.to_le_bytes().to_vec()],
        ..Transaction::default()
    }
    .to_bytes()
}

fn brings(tokens: u128) -> Vec<u8> {
    write_records(&[Some(ResolvedCell { output: token_output(7), data: tokens.to_le_bytes().to_vec() })])
}

#[test]
fn sums_pass_128_bits() {
    let (start, lock, udt, source) = (holding(1), script(0).to_bytes(), script(2).to_bytes(), script(1).to_bytes());
    let peers: Vec<Vec<u8>> = (2..5).map(holding).collect();
    let (top, none) = (brings(u128::MAX), write_records(&[]));
    let update = |peer, records| PeerUpdate { peer, records, source: &source, rate: 1000 };
    // the second lends no record for its input, and is refused
    let updates = [update(&peers[0], &top), update(&peers[1], &none), update(&peers[1], &top), update(&peers[2], &top)];
    let replayed = replay(Some(&start), &lock, Some(&udt), &updates).unwrap();
    let accepted = Ok(Accepted { capacity: 7, token: u128::MAX });
    assert_eq!(replayed.answers, [accepted, Err(Refusal::LentBytesUnreadable), accepted, accepted]);
    assert_eq!(replayed.in_force, Some(3));
    assert_eq!(replayed.capacity.to_u128(), Some(21));
    assert_eq!(replayed.token.to_u128(), None);
    assert_eq!(replayed.token.to_string(), "1020847100762815390390123822295304634365");

    let mut negotiation = Negotiation::new(Some(&start), &lock, Some(&udt));
    for (update, answer) in updates.iter().zip(&replayed.answers) {
        assert_eq!(negotiation.update(update), *answer);
    }
    assert_eq!(negotiation.in_force(), Some(&peers[2][..]));
    assert_eq!((negotiation.capacity(), negotiation.token(), negotiation.accepted()), (replayed.capacity, replayed.token, 3));

    // the same by the program: three case files
    let mut words = vec!["replay".to_string()];
    for (i, update) in updates.iter().enumerate() {
        let records = if update.records == top {
            vec![Some(CaseRecord { output: token_output(7).to_bytes(), data: u128::MAX.to_le_bytes().to_vec() })]
        } else {
            vec![]
        };
        let case = CaseFile {
            ours: (i == 0).then(|| start.clone()),
            peer: update.peer.to_vec(),
            lock: lock.clone(),
            udt: Some(udt.clone()),
            source: source.clone(),
            rate: 1000,
            records,
        };
        words.push(common::file(&format!("sums_{i}.case"), case.to_bytes().unwrap()));
    }
    let ran = common::run(&words.iter().map(String::as_str).collect::<Vec<_>>());
    let end = format!(
        "\naccepted: 3 of 4\nsum of their surpluses: 21 shannons (0.00000021 CKB) and 1020847100762815390390123822295304634365 tokens\nin force: the peer's transaction of {}\n",
        words[4]
    );
    assert!(ran.out.ends_with(&end), "{}", ran.out);
    assert!(
        ran.out.contains(": refused (3): something that is lent can't be used: 1 input was added, and 0 records were lent\n"),
        "{}",
        ran.out
    );
    assert_eq!(ran.status, 1);
}

#[test]
fn no_updates() {
    assert_eq!(replay(None, &[], None, &[]), Ok(Replay::default()));
}

/// The case files of the examples, in many orders: one call answers as the calls one by one.
#[test]
fn replay_is_the_calls_one_by_one() {
    let cases: Vec<CaseFile> =
        common::cases().iter().map(|(_, bytes, _)| CaseFile::from_bytes(bytes).unwrap()).filter(|case| case.udt.is_none()).collect();
    let records: Vec<Vec<u8>> = cases.iter().map(CaseFile::records_bytes).collect();
    for start in 0..cases.len() {
        for step in [1, 2, 3, 5] {
            let order: Vec<usize> = (0..2 * cases.len()).map(|i| (start + i * step) % cases.len()).collect();
            let updates: Vec<PeerUpdate> = order.iter().map(|i| cases[*i].update(&records[*i])).collect();
            let first = &cases[start];
            let replayed = replay(first.ours.as_deref(), &first.lock, None, &updates).unwrap();
            let mut negotiation = Negotiation::new(first.ours.as_deref(), &first.lock, None);
            let answers: Vec<_> = updates.iter().map(|update| negotiation.update(update)).collect();
            assert_eq!(replayed.answers, answers);
            assert_eq!((replayed.capacity, replayed.token), (negotiation.capacity(), negotiation.token()));
            let in_force = replayed.in_force.map_or(first.ours.as_deref(), |k| Some(updates[k].peer));
            assert_eq!(in_force, negotiation.in_force());
        }
    }
}

/// Wherever the start is unreadable, every update is refused with 1.
#[test]
fn an_unreadable_start() {
    let lock = script(0).to_bytes();
    let update = PeerUpdate { peer: &holding(1), records: &write_records(&[]), source: &lock, rate: 1000 };
    let replayed = replay(Some(b"no transaction"), &lock, None, &[update; 3]).unwrap();
    assert_eq!(replayed.answers, [Err(Refusal::OurTransactionUnreadable); 3]);
    assert_eq!(replayed.in_force, None);
}

/// A transaction or type of no bytes is one that can't be read, and not one that is missing.
#[test]
fn no_bytes_are_unreadable() {
    let lock = script(0).to_bytes();
    let peer = holding(1);
    let update = PeerUpdate { peer: &peer, records: &write_records(&[]), source: &lock, rate: 1000 };
    let unreadable = PeerUpdate { peer: &[], ..update };
    assert_eq!(update_for_peer(Some(&[]), &lock, None, &unreadable), Err(Refusal::OurTransactionUnreadable));
    assert_eq!(update_for_peer(None, &lock, Some(&[]), &unreadable), Err(Refusal::PeerTransactionUnreadable));
    assert_eq!(update_for_peer(None, &lock, Some(&[]), &update), Err(Refusal::LentBytesUnreadable));
    assert_eq!(replay(Some(&[]), &lock, None, &[update]).unwrap().answers, [Err(Refusal::OurTransactionUnreadable)]);
    assert_eq!(Negotiation::new(None, &lock, Some(&[])).update(&update), Err(Refusal::LentBytesUnreadable));
    let case = CaseFile { ours: Some(vec![]), peer, lock: lock.clone(), source: lock.clone(), ..CaseFile::default() };
    assert_eq!(case.judge(), Err(Refusal::OurTransactionUnreadable));
    let request = FundingRequest::default();
    assert_eq!(build_funding_cell(Some(&[]), Some(&[]), &request), Err(Refusal::OurTransactionUnreadable));
    assert_eq!(build_funding_cell(None, Some(&[]), &request), Err(Refusal::LentBytesUnreadable));
    assert_eq!(build_udt_inputs_outputs(&[], Some(&[]), &lock, 0), Err(Refusal::LentBytesUnreadable));
    assert_eq!(build_udt_inputs_outputs(&[], None, &lock, 7), Ok(TokenPick::default()));
    let base = BaseRequest { lock: &lock, source: &lock, ..BaseRequest::default() };
    assert!(build_base(&base).is_ok());
    assert_eq!(build_base(&BaseRequest { ours: Some(&[]), ..base }), Err(Refusal::OurTransactionUnreadable));
    assert_eq!(build_base(&BaseRequest { udt: Some(&[]), ..base }), Err(Refusal::LentBytesUnreadable));
}
