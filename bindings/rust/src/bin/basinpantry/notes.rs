//! What the rules don't refuse and the chain does, so that it is told: added inputs that spend a cell a second time, and data entries that are not one for each
//! output.
use crate::words::{self, count};
use basinpantry::Transaction;
use std::collections::HashMap;

/// A note for each input that the peer added and whose out point stands earlier among its inputs.
pub fn repeats(ours: &Transaction, peer: &Transaction, full: bool) -> Vec<String> {
    let mut first = HashMap::new();
    let mut notes = Vec::new();
    for (i, input) in peer.inputs.iter().enumerate() {
        let before = *first.entry(input.previous_output).or_insert(i);
        if before != i && i >= ours.inputs.len() {
            let point = words::out_point(&input.previous_output, full);
            notes.push(format!("added input {i} spends {point}, as input {before} does; its record is counted all the same"));
        }
    }
    notes
}

/// A note where the peer's transaction has not one data entry for each output.
pub fn data_entries(peer: &Transaction) -> Option<String> {
    let (outputs, entries) = (peer.outputs.len(), peer.outputs_data.len());
    (outputs != entries).then(|| {
        let (outputs, entries) = (count(outputs, "outputs"), count(entries, "data entries"));
        format!("the peer's transaction has {outputs} and {entries}: it is judged all the same, and the chain takes no such transaction")
    })
}

#[cfg(test)]
mod tests {
    use super::*;
    use basinpantry::{CellInput, H256, OutPoint};

    fn spending(indexes: &[u32]) -> Transaction {
        let input = |index| CellInput { since: u64::from(index), previous_output: OutPoint { tx_hash: H256([0; 32]), index } };
        Transaction { inputs: indexes.iter().map(|index| input(*index)).collect(), ..Transaction::default() }
    }

    #[test]
    fn added_inputs_only() {
        let notes = |ours: &[u32], peer: &[u32]| repeats(&spending(ours), &spending(peer), false);
        assert!(notes(&[], &[1, 2, 3]).is_empty());
        // what ours has twice was not added
        assert!(notes(&[1, 1], &[1, 1, 2]).is_empty());
        let note = |i, index, before| {
            format!("added input {i} spends 0x00000000..0000:{index}, as input {before} does; its record is counted all the same")
        };
        assert_eq!(notes(&[], &[5, 6, 6, 5, 5]), [note(2, 6, 1), note(3, 5, 0), note(4, 5, 0)]);
        assert_eq!(notes(&[5], &[5, 5]), [note(1, 5, 0)]);
    }

    #[test]
    fn an_entry_for_each_output() {
        let note = |outputs: usize, entries: usize| {
            data_entries(&Transaction {
                outputs: vec![Default::default(); outputs],
                outputs_data: vec![vec![]; entries],
                ..Transaction::default()
            })
        };
        assert_eq!((note(0, 0), note(2, 2)), (None, None));
        let told = |counts: &str| {
            Some(format!("the peer's transaction has {counts}: it is judged all the same, and the chain takes no such transaction"))
        };
        assert_eq!(note(2, 3), told("2 outputs and 3 data entries"));
        assert_eq!(note(1, 0), told("1 output and 0 data entries"));
        assert_eq!(note(3, 1), told("3 outputs and 1 data entry"));
    }

    /// The same cell with another since is the same cell.
    #[test]
    fn since_is_not_looked_at() {
        let mut peer = spending(&[5, 5]);
        peer.inputs[1].since = 9;
        assert_eq!(repeats(&Transaction::default(), &peer, false).len(), 1);
    }
}
