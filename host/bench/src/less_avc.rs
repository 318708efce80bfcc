//! The crate's times, out of the table that the oracle's bench prints.

use std::collections::HashMap;
use std::path::Path;
use std::process::Command;

use crate::frame::{Content, Kind};

/// The least milliseconds by kind and content.
#[derive(Default)]
pub struct Times(HashMap<(String, String), f64>);

impl Times {
    /// Runs the bench, and keeps what is less than before.
    pub fn run(&mut self, program: &Path) -> Result<(), String> {
        let fault = |what: String| format!("{}: {what}", program.display());
        let output = Command::new(program).output();
        let output = output.map_err(|error| fault(error.to_string()))?;
        if !output.status.success() {
            return Err(fault(output.status.to_string()));
        }
        let rows = rows(&String::from_utf8_lossy(&output.stdout));
        for (name, ms) in rows.ok_or(fault("no table of the known form".into()))? {
            let least = self.0.entry(name).or_insert(ms);
            *least = least.min(ms);
        }
        Ok(())
    }

    /// The crate's time, if its bench has such a row.
    pub fn of(&self, kind: Kind, content: Content) -> Option<f64> {
        self.0.get(&(kind.name(), content.name().into())).copied()
    }
}

/// The columns `kind`, `content` and `fastest ms` of a table with bars, if it is one.
fn rows(text: &str) -> Option<Vec<((String, String), f64)>> {
    let cells = |line: &str| -> Vec<String> {
        let line = line.trim().trim_matches('|');
        line.split('|').map(|cell| cell.trim().into()).collect()
    };
    let mut lines = text.lines().filter(|line| line.starts_with('|'));
    let names = cells(lines.next()?);
    let column = |name: &str| names.iter().position(|cell| cell == name);
    let (kind, content) = (column("kind")?, column("content")?);
    let fastest = column("fastest ms")?;
    let row = |line: &str| {
        let cells = cells(line);
        let name = (cells.get(kind)?.clone(), cells.get(content)?.clone());
        Some((name, cells.get(fastest)?.parse().ok()?))
    };
    let rows: Option<Vec<_>> = lines.skip(1).map(row).collect();
    rows.filter(|rows| !rows.is_empty())
}

#[cfg(test)]
mod tests {
    use super::*;

    #[test]
    fn a_table_is_read() {
        let text = "words\n\n| kind | content | both ms | fastest ms |\n|---|---|---|---|\n\
                    | mono8 | all zeros | 5.00 | 4.25 |\n";
        let name = ("mono8".to_string(), "all zeros".to_string());
        assert_eq!(rows(text), Some(vec![(name, 4.25)]));
        assert_eq!(rows("words\n"), None);
    }
}
