//! Figures and verdicts for people.
use basinpantry::{Accepted, CaseFile, OutPoint, Refusal, Script, Total};

/// Shannons in CKB, with the decimal point.
pub fn ckb(shannons: Total) -> String {
    let digits = format!("{shannons:09}");
    let (whole, rest) = digits.split_at(digits.len() - 8);
    format!("{whole}.{rest}")
}

/// Shannons, and in brackets in CKB.
pub fn shannons(count: Total) -> String {
    let unit = if count == Total::from(1) { "shannon" } else { "shannons" };
    format!("{count} {unit} ({} CKB)", ckb(count))
}

/// A surplus in shannons and, where a token is expected, in tokens.
pub fn surplus(capacity: Total, token: Total, typed: bool) -> String {
    match typed {
        false => shannons(capacity),
        true if token == Total::from(1) => format!("{} and 1 token", shannons(capacity)),
        true => format!("{} and {token} tokens", shannons(capacity)),
    }
}

/// So many of what the plural names.
pub fn count(n: usize, plural: &str) -> String {
    match plural {
        _ if n != 1 => format!("{n} {plural}"),
        "data entries" => "1 data entry".to_string(),
        "witnesses" => "1 witness".to_string(),
        _ => format!("1 {}", plural.trim_end_matches('s')),
    }
}

/// The same with its verb.
pub fn was(n: usize, plural: &str) -> String {
    format!("{} {}", count(n, plural), if n == 1 { "was" } else { "were" })
}

/// What the answer to a case means, with its numbers.
pub fn verdict(case: &CaseFile, answer: &Result<Accepted, Refusal>) -> String {
    match answer {
        Ok(accepted) => {
            let left = surplus(Total::from(accepted.capacity), Total::from(accepted.token), case.udt.is_some());
            format!("accepted: the peer puts in {left} more than the growth of output 0 and the outputs that it added")
        }
        Err(why) => match (short(why), case.reason(why)) {
            (Some(short), Some(reason)) => format!("refused ({}): {short}: {reason}", why.number()),
            _ => format!("refused ({}): {why}", why.number()),
        },
    }
}

/// The sentence of a refusal that has several reasons, to which the one that it is can be added.
fn short(why: &Refusal) -> Option<&'static str> {
    match why {
        Refusal::LentBytesUnreadable => Some("something that is lent can't be used"),
        Refusal::PeerFundingTxExceedsLimit => Some("the peer's transaction is over a limit"),
        Refusal::InvalidPeerFundingTx => Some("the peer's funding transaction is invalid"),
        Refusal::OverflowError => Some("a sum is too wide"),
        _ => None,
    }
}

/// Bytes as hex, in the middle left out where they are many and `full` is not asked for.
pub fn hex(bytes: &[u8], full: bool) -> String {
    let digits = |bytes: &[u8]| {
        let mut out = String::with_capacity(2 * bytes.len());
        for nibble in bytes.iter().flat_map(|b| [b >> 4, b & 15]) {
            out.push(char::from_digit(nibble.into(), 16).unwrap_or('?'));
        }
        out
    };
    match bytes {
        [first @ .., a, b] if !full && bytes.len() > 8 => format!("0x{}..{}", digits(&first[..4]), digits(&[*a, *b])),
        _ => format!("0x{}", digits(bytes)),
    }
}

pub fn out_point(point: &OutPoint, full: bool) -> String {
    format!("{}:{}", hex(point.tx_hash.as_ref(), full), point.index)
}

/// A script's code hash, hash type and args.
pub fn script(script: &Script, full: bool) -> String {
    format!("{} {} {}", hex(script.code_hash.as_ref(), full), script.hash_type, hex(&script.args, full))
}

#[cfg(test)]
mod tests {
    use super::*;

    #[test]
    fn figures() {
        assert_eq!(count(1, "cell deps"), "1 cell dep");
        assert_eq!(count(1, "data entries"), "1 data entry");
        assert_eq!(count(0, "inputs"), "0 inputs");
        assert_eq!(surplus(Total::from(2), Total::from(3), false), "2 shannons (0.00000002 CKB)");
        assert_eq!(surplus(Total::from(2), Total::from(3), true), "2 shannons (0.00000002 CKB) and 3 tokens");
        assert_eq!(ckb(Total::ZERO), "0.00000000");
        assert_eq!(ckb(Total::from(1)), "0.00000001");
        assert_eq!(ckb(Total::from(10_000_000_205)), "100.00000205");
        assert_eq!(shannons(Total::from(1)), "1 shannon (0.00000001 CKB)");
        assert_eq!(shannons(Total::from(205)), "205 shannons (0.00000205 CKB)");
    }

    #[test]
    fn short_hex() {
        assert_eq!(hex(&[], false), "0x");
        assert_eq!(hex(&[1, 2, 3, 4, 5, 6, 7, 8], false), "0x0102030405060708");
        assert_eq!(hex(&[1, 2, 3, 4, 5, 6, 7, 8, 9], false), "0x01020304..0809");
        assert_eq!(hex(&[1, 2, 3, 4, 5, 6, 7, 8, 9], true), "0x010203040506070809");
    }
}
