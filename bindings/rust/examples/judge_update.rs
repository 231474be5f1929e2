//! From a node's JSON to a verdict, with the transaction in force kept: `cargo run --offline --example judge_update`.
use basinpantry::{Negotiation, PeerUpdate, Transaction, json, write_records};
use std::error::Error;

pub fn judge(folder: &str) -> Result<Vec<String>, Box<dyn Error>> {
    let read = |name: &str| std::fs::read(format!("{folder}/{name}.json"));
    let ours = json::transaction(read("ours")?)?;
    let lock = json::script(read("funding_lock")?)?.to_bytes();
    let udt = json::script(read("token_type")?)?.to_bytes();
    let source = json::script(read("source_lock")?)?.to_bytes();

    // without a transaction at the start, or in an untyped channel, None stands in their place
    let mut negotiation = Negotiation::new(Some(&ours.to_bytes()), &lock, Some(&udt));
    let mut lines = Vec::new();
    for name in ["greedy_peer", "peer"] {
        let peer = json::transaction(read(name)?)?;
        // the cells that the inputs spend which are added to what is in force, as the node answered when it was asked for them
        let in_force = negotiation.in_force().and_then(Transaction::from_bytes);
        let records = json::records(read("records")?, in_force.as_ref(), &peer)?;
        let update = PeerUpdate { peer: &peer.to_bytes(), records: &write_records(&records.cells), source: &source, rate: 1000 };
        lines.push(match negotiation.update(&update) {
            Ok(accepted) => format!("{name}: accepted with {accepted}"),
            // a refusal has changed nothing
            Err(why) => match negotiation.reason(&update, &why) {
                Some(reason) => format!("{name}: refused ({}): {why}: {reason}", why.number()),
                None => format!("{name}: refused ({}): {why}", why.number()),
            },
        });
    }
    let in_force = negotiation.in_force().map_or(0, <[u8]>::len);
    lines.push(format!("in force: {in_force} bytes, after {} accepted", negotiation.accepted()));
    Ok(lines)
}

fn main() -> Result<(), Box<dyn Error>> {
    for line in judge(concat!(env!("CARGO_MANIFEST_DIR"), "/../../examples/json"))? {
        println!("{line}");
    }
    Ok(())
}
