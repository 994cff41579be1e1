//! What the tests share: the vectors of tests/vectors.
use std::fs;
use std::path::{Path, PathBuf};

pub fn folder() -> PathBuf {
    Path::new(env!("CARGO_MANIFEST_DIR")).join("../../tests/vectors")
}

/// The bytes that a column of the rows of a change stands for.
pub fn column(change: &str, text: &str) -> Vec<u8> {
    match text.strip_prefix('@') {
        Some(file) => fs::read(folder().join("changes").join(change).join(file)).unwrap(),
        None if text == "-" => vec![],
        None => (0..text.len()).step_by(2).map(|at| u8::from_str_radix(&text[at..at + 2], 16).unwrap()).collect(),
    }
}

/// Numbers with a space between them.
pub fn numbers(text: &str) -> Vec<u32> {
    text.split(' ').filter(|number| *number != "-").map(|number| number.parse().unwrap()).collect()
}

/// The number of the newest change.
fn newest() -> u32 {
    let entries = fs::read_dir(folder().join("changes")).unwrap().map(|entry| entry.unwrap().file_name());
    entries.filter_map(|name| name.to_str()?.parse().ok()).max().unwrap()
}

/// Hands on the calls of a function in the vectors of a change that hold: the columns, and the numbers of the reply.
/// Gives how many there are.
pub fn each_row(change: &str, function: &str, mut check: impl FnMut(&[&str], &[u32])) -> usize {
    let (rows, newest) = (fs::read_to_string(folder().join("changes").join(change).join("rows.tsv")).unwrap(), newest());
    let rows = rows.lines().map(|row| row.split('\t').collect::<Vec<_>>());
    let rows: Vec<_> = rows.filter(|row| row[0] == function && newest <= row[7].parse().unwrap()).collect();
    for row in &rows {
        check(row, &numbers(row[4]));
    }
    rows.len()
}
