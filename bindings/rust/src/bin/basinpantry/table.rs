//! Columns that stand below each other.

/// Rows of cells under a head. A column whose head begins with `>` is aligned at the right. The rows are made twice, for the widths and to be written, so that a
/// long list takes no more memory than its lines.
pub fn write(out: &mut String, head: &[&str], rows: impl Iterator<Item = Vec<String>> + Clone) {
    let right: Vec<bool> = head.iter().map(|name| name.starts_with('>')).collect();
    let head: Vec<String> = head.iter().map(|name| name.trim_start_matches('>').to_string()).collect();
    let mut widths: Vec<usize> = head.iter().map(|name| name.chars().count()).collect();
    for row in rows.clone() {
        for (width, cell) in widths.iter_mut().zip(&row) {
            *width = (*width).max(cell.chars().count());
        }
    }
    for row in std::iter::once(head).chain(rows) {
        let mut line = String::new();
        for ((cell, width), right) in row.iter().zip(&widths).zip(&right) {
            let width = *width;
            line += "  ";
            line += &if *right { format!("{cell:>width$}") } else { format!("{cell:<width$}") };
        }
        out.push_str(line.trim_end());
        out.push('\n');
    }
}

#[cfg(test)]
mod tests {
    #[test]
    fn columns_are_aligned() {
        let mut out = String::new();
        let rows = [vec!["a".to_string(), "1".to_string()], vec!["abc".to_string(), "22222".to_string()]];
        super::write(&mut out, &["no", ">sum"], rows.into_iter());
        assert_eq!(out, "  no     sum\n  a        1\n  abc  22222\n");
    }
}
