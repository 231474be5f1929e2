//! Half a megabyte of stack is enough for every call, and where there is far too little a call ends the process at the guard page.
mod common;

use basinpantry::{
    BaseRequest, CaseFile, CellDep, CellInput, DepType, H256, HeldCells, LiveCellsExclusionMap, MAX_CASE_BYTES, OutPoint, Script, Taker,
    Transaction, build_base, check_case, replay, rewrite,
};
use common::cases;

const HALF_A_MEGABYTE: usize = 512 * 1024;

/// Runs this in a thread with so much stack.
fn with_stack(bytes: usize, run: impl FnOnce() + Send + 'static) {
    std::thread::Builder::new().stack_size(bytes).spawn(run).expect("a thread").join().expect("it ends well");
}

fn points(n: u32) -> Vec<OutPoint> {
    (0..n).map(|index| OutPoint { tx_hash: H256([1; 32]), index }).collect()
}

fn spending(n: u32) -> Vec<u8> {
    let inputs = points(n).into_iter().map(|previous_output| CellInput { since: 0, previous_output }).collect();
    Transaction { inputs, ..Transaction::default() }.to_bytes()
}

fn first_case() -> Vec<u8> {
    cases().into_iter().find(|(path, ..)| path.ends_with("first.case")).expect("first.case").1
}

/// As long as may be, with as many records as may be.
fn call_check_case() {
    let mut bytes = first_case();
    while bytes.len() < MAX_CASE_BYTES {
        bytes.extend([0, 0, 0, 0x90]);
    }
    assert_eq!(check_case(&bytes), "3\n");
}

/// As many picks as are indexed.
const MOST_PICKS: u32 = 7_394;

/// A full table, and as many picks as are indexed: two lists have no room for them.
fn call_take() {
    let mut held = HeldCells::new();
    assert_eq!(held.take(&points(256), &[], Taker::Funding(1), 0).expect("room").taken.len(), 256);
    assert_eq!(held.take(&points(256), &[], Taker::Watchtower, 0).expect("a table").refused.len(), 256);
    assert!(held.take(&points(MOST_PICKS), &points(256), Taker::Watchtower, 0).is_err());
    assert_eq!(held.len(), 256);
}

/// As many cell deps as fit a transaction.
fn call_build_base() {
    let extra_deps: Vec<CellDep> = points(3_587).into_iter().map(|out_point| CellDep { out_point, dep_type: DepType::CODE }).collect();
    let script = Script::default().to_bytes();
    let base = build_base(&BaseRequest { lock: &script, source: &script, extra_deps: &extra_deps, ..BaseRequest::default() });
    assert!(base.expect("room").len() > 132_000);
}

/// A full map.
fn call_exclusions() {
    let mut map = LiveCellsExclusionMap::new();
    map.add(&H256([1; 32]), Some(&spending(512))).expect("room");
    map.commit(&H256([1; 32]), 5);
    map.truncate(6);
    map.migrate_funding_tx(&H256([1; 32]), &H256([2; 32]), Some(&spending(512))).expect("room");
    assert_eq!(map.apply().len(), 512);
    map.remove(&H256([2; 32]));
    assert!(map.apply().is_empty());
}

/// A table that the watchtower or a funding has filled.
fn full(fill: impl FnOnce(&mut HeldCells)) -> HeldCells {
    let mut held = HeldCells::new();
    fill(&mut held);
    assert_eq!(held.len(), 256);
    held
}

fn call_hold_funding() {
    full(|held| held.hold_funding(1, &points(256)).expect("room"));
}

fn call_hold_for_watchtower() {
    full(|held| held.hold_for_watchtower(&points(256), 0).expect("room"));
}

/// A table without a record: the call has its whole frame all the same.
fn call_release_for_watchtower() {
    HeldCells::new().release_for_watchtower(&points(256)).expect("a table");
}

fn call_lock_held() {
    assert!(HeldCells::new().lock_held(0).is_empty());
}

fn call_unavailable() {
    assert_eq!(HeldCells::new().unavailable(&points(256), &points(256), 5).expect("a table").len(), 256);
    assert!(HeldCells::new().unavailable(&points(MOST_PICKS), &points(256), 5).is_ok_and(|cells| cells.len() == 256));
}

/// The same three on full tables.
fn call_on_full_tables() {
    let mut held = full(|held| held.hold_for_watchtower(&points(256), 0).expect("room"));
    held.hold_for_watchtower(&points(256), 1).expect("room");
    assert_eq!(held.unavailable(&points(256), &points(256), 5).expect("a table").len(), 256);
    assert_eq!(held.lock_held(0).len(), 256);
    held.release_for_watchtower(&points(256)).expect("a table");
    assert!(held.is_empty());
}

fn call_updates() {
    let case = CaseFile::from_bytes(&first_case()).expect("a case");
    assert!(case.judge().is_ok());
    let records = case.records_bytes();
    let updates = [case.update(&records); 2];
    assert_eq!(replay(None, &case.lock, None, &updates).expect("a list").answers.len(), 2);
    let tx = spending(2_000);
    assert_eq!(rewrite(&tx), Ok(tx.clone()));
}

type Call = (&'static str, fn());

/// The calls that have frames of many pages, and those that have not.
const LARGE: [Call; 9] = [
    ("check_case", call_check_case),
    ("take", call_take),
    ("build_base", call_build_base),
    ("hold_funding", call_hold_funding),
    ("hold_for_watchtower", call_hold_for_watchtower),
    ("release_for_watchtower", call_release_for_watchtower),
    ("lock_held", call_lock_held),
    ("unavailable", call_unavailable),
    ("full tables", call_on_full_tables),
];
const SMALL: [Call; 2] = [("exclusions", call_exclusions), ("updates", call_updates)];

#[test]
fn half_a_megabyte_is_enough() {
    with_stack(HALF_A_MEGABYTE, || {
        for (path, bytes, line) in cases() {
            assert_eq!(check_case(&bytes), line, "{path:?}");
        }
    });
    for (_, call) in LARGE.into_iter().chain(SMALL) {
        with_stack(HALF_A_MEGABYTE, call);
    }
}

#[cfg(target_os = "linux")]
mod too_little {
    use super::*;
    use std::os::unix::process::ExitStatusExt;
    use std::process::Command;

    /// Which call a process that `ends` starts is to make, and with how much stack.
    const CALL: &str = "BASINPANTRY_TEST_CALL";
    const STACK: &str = "BASINPANTRY_TEST_STACK";

    const SIGABRT: i32 = 6;

    /// What a process of its own makes; nothing in any other.
    #[test]
    fn child() {
        let Ok(call) = std::env::var(CALL) else { return };
        let stack = std::env::var(STACK).expect("a size").parse().expect("a number");
        let (_, call) = LARGE.into_iter().chain(SMALL).find(|(name, _)| *name == call).expect("a call of this name");
        // a thread of this size does start, and has room for what the test itself needs
        with_stack(stack, || drop(std::hint::black_box((points(3_587), spending(512), cases()))));
        println!("started");
        with_stack(stack, call);
        println!("returned");
    }

    /// Makes the call in a process of its own, and answers whether it returned. If not, the standard library has seen a fault in the guard page of the stack,
    /// of which it tells before it ends the process: a fault at any other place would be another signal, without these words.
    fn returns(call: &str, stack: usize) -> bool {
        let mut child = Command::new(std::env::current_exe().expect("this program"));
        child.args(["--exact", "too_little::child", "--nocapture", "--test-threads=1"]);
        let ran = child.env(CALL, call).env(STACK, stack.to_string()).output().expect("it runs");
        let (out, err) = (String::from_utf8_lossy(&ran.stdout), String::from_utf8_lossy(&ran.stderr));
        assert!(out.contains("started"), "{call}: {out}{err}");
        if ran.status.success() {
            assert!(out.contains("returned"), "{call}: {out}{err}");
            return true;
        }
        assert_eq!(ran.status.signal(), Some(SIGABRT), "{call}: {out}{err}");
        assert!(err.contains("has overflowed its stack"), "{call}: {err}");
        false
    }

    /// `check_case` needs more than 208 KB and less than 224, `take` more than 176 and less than 208, and no other call as much as `take`.
    #[test]
    fn the_largest_calls() {
        for (call, _) in LARGE.into_iter().chain(SMALL) {
            assert_eq!(returns(call, 208 * 1024), call != "check_case", "{call}");
            assert_eq!(returns(call, 176 * 1024), call != "check_case" && call != "take", "{call}");
        }
        assert!(returns("check_case", 224 * 1024));
    }

    #[test]
    fn the_guard_page_is_met() {
        for (call, _) in LARGE {
            // as today's compiler makes it, lock_held is content with 36
            let too_little = if call == "lock_held" { 28 } else { 40 };
            assert!(!returns(call, too_little * 1024), "{call}");
        }
        // an update has room for chains of the peer's cell deps, of some 48 KB
        for (call, _) in SMALL {
            assert!(returns(call, 64 * 1024), "{call}");
        }
        assert!(returns("exclusions", 40 * 1024));
    }
}
