//! The tables of a page of docs/.
use std::{collections::HashMap, fs, path::Path};

/// The text of a page.
pub fn page(name: &str) -> String {
    fs::read_to_string(Path::new(env!("CARGO_MANIFEST_DIR")).join("../docs").join(name)).unwrap()
}

/// A row by the names of its columns.
pub type Row = HashMap<String, String>;

fn cells(line: &str) -> Vec<String> {
    let inner = line.trim().strip_prefix('|').and_then(|rest| rest.strip_suffix('|'));
    inner.unwrap_or_else(|| panic!("no row: {line}")).split('|').map(|cell| cell.trim().to_owned()).collect()
}

/// The rows of the only table that has these columns.
pub fn table(page: &str, columns: &[&str]) -> Vec<Row> {
    let mut blocks = page.split("\n\n").filter(|block| block.starts_with('|'));
    let mut found = blocks.by_ref().filter(|block| cells(block.lines().next().unwrap()) == columns);
    let block = found.next().unwrap_or_else(|| panic!("no table {columns:?}"));
    assert!(found.next().is_none(), "two tables {columns:?}");
    let rows = block.lines().skip(2).map(|line| {
        let cells = cells(line);
        assert_eq!(cells.len(), columns.len(), "{line}");
        columns.iter().map(|column| (*column).to_owned()).zip(cells).collect()
    });
    rows.collect()
}
