//! The forms of RFC 0008 in which values are lent: written and, inside what the library has read, taken apart.

/// A number of 32 bits. A length above that can't be told; the library then refuses what is lent, since sizes have to agree exactly.
fn size(n: usize) -> [u8; 4] {
    u32::try_from(n).unwrap_or(u32::MAX).to_le_bytes()
}

/// Bytes with their count.
pub(crate) fn bytes(content: &[u8]) -> Vec<u8> {
    let mut out = Vec::with_capacity(4 + content.len());
    out.extend(size(content.len()));
    out.extend(content);
    out
}

/// A list of sized items: count, items.
pub(crate) fn fixvec<T: AsRef<[u8]>>(items: impl IntoIterator<Item = T>) -> Vec<u8> {
    let mut out = vec![0; 4];
    let mut count = 0;
    for item in items {
        out.extend(item.as_ref());
        count += 1;
    }
    out[..4].copy_from_slice(&size(count));
    out
}

/// The start of a table, or of a list of unsized items, with room for the items of these sizes that are to stand behind it: total size, offsets.
pub(crate) fn head(sizes: impl Iterator<Item = usize> + Clone) -> Vec<u8> {
    let head = 4 * (sizes.clone().count() + 1);
    let total = sizes.clone().fold(head, usize::saturating_add);
    let mut out = Vec::with_capacity(total);
    out.extend(size(total));
    let mut at = head;
    for n in sizes {
        out.extend(size(at));
        at += n;
    }
    out
}

/// A table, or a list of unsized items: total size, offsets, items.
pub(crate) fn table<T: AsRef<[u8]>>(items: &[T]) -> Vec<u8> {
    let mut out = head(items.iter().map(|item| item.as_ref().len()));
    for item in items {
        out.extend(item.as_ref());
    }
    out
}

/// A list of byte strings, each with its count. Written in one go, since there may be many short ones.
pub(crate) fn bytes_vec<T: AsRef<[u8]>>(entries: &[T]) -> Vec<u8> {
    let mut out = head(entries.iter().map(|entry| 4 + entry.as_ref().len()));
    for entry in entries {
        out.extend(size(entry.as_ref().len()));
        out.extend(entry.as_ref());
    }
    out
}

/// A part that may be missing, as it is lent: no bytes say that it is. A part of no bytes is no transaction and no script; it goes as one byte, which is none
/// either, so that the library refuses it in its turn.
pub(crate) fn option(part: Option<&[u8]>) -> &[u8] {
    match part {
        None => &[],
        Some([]) => &[0],
        Some(part) => part,
    }
}

/// The number of 4 bytes at a place.
fn number_at(s: &[u8], at: usize) -> Option<usize> {
    let part: [u8; 4] = s.get(at..at.checked_add(4)?)?.try_into().ok()?;
    usize::try_from(u32::from_le_bytes(part)).ok()
}

/// The parts of a table or of a list of unsized items, one after the other; one that does not lie in the bytes is nothing.
pub(crate) fn each_part(s: &[u8]) -> Option<impl ExactSizeIterator<Item = Option<&[u8]>> + Clone> {
    if number_at(s, 0)? != s.len() {
        return None;
    }
    let head = if s.len() == 4 { 4 } else { number_at(s, 4).filter(|head| head & 3 == 0 && (8..=s.len()).contains(head))? };
    let count = (head >> 2) - 1;
    Some((1..count + 1).map(move |i| {
        let end = if i == count { s.len() } else { number_at(s, 4 * (i + 1))? };
        s.get(number_at(s, 4 * i)?..end)
    }))
}

/// All of them.
pub(crate) fn parts(s: &[u8]) -> Option<Vec<&[u8]>> {
    each_part(s)?.collect()
}

/// The content of bytes with their count.
pub(crate) fn content(s: &[u8]) -> Option<&[u8]> {
    let content = s.get(4..)?;
    (number_at(s, 0)? == content.len()).then_some(content)
}

#[cfg(test)]
mod tests {
    use super::*;

    #[test]
    fn written_and_taken_apart() {
        assert_eq!(bytes(b"ab"), b"\x02\0\0\0ab");
        assert_eq!(content(b"\x02\0\0\0ab"), Some(&b"ab"[..]));
        assert_eq!(content(b"\x03\0\0\0ab"), None);
        assert_eq!(fixvec([b"ab", b"cd"]), b"\x02\0\0\0abcd");
        assert_eq!(table::<&[u8]>(&[]), b"\x04\0\0\0");
        assert_eq!(parts(b"\x04\0\0\0"), Some(vec![]));
        assert_eq!(bytes_vec(&[&b"ab"[..], b""]), table(&[bytes(b"ab"), bytes(b"")]));
        assert_eq!(bytes_vec::<&[u8]>(&[]), b"\x04\0\0\0");
        let two = table(&[&b"ab"[..], b""]);
        assert_eq!(two, b"\x0e\0\0\0\x0c\0\0\0\x0e\0\0\0ab");
        assert_eq!(parts(&two), Some(vec![&b"ab"[..], b""]));
    }

    #[test]
    fn no_content_stops_the_reader() {
        for head in 0..=40u8 {
            for next in 0..=40u8 {
                for length in 0..24usize {
                    let mut s = [length as u8, 0, 0, 0, head, 0, 0, 0, next, 0, 0, 0, 0xff, 0xff, 0xff, 0xff, 0, 0, 0, 0, 1, 2, 3, 4];
                    parts(&s[..length]);
                    s[7] = 0xff;
                    parts(&s[..length]);
                    content(&s[..length]);
                }
            }
        }
    }
}
