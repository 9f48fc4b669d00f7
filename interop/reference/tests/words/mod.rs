//! Sheets as words, for the tests that write them by hand.

/// Sizes without the number of rows, then rows, as words.
pub fn sheet(sizes: &[u16], rows: &[(u16, u16)]) -> Vec<u16> {
    let mut words = sizes.to_vec();
    words.push(rows.len() as u16);
    words.extend(rows.iter().map(|row| row.0));
    words.extend(rows.iter().map(|row| row.1));
    words
}
