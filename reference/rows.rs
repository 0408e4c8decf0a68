//! Rows of what was met, as the comparing programs print them.

use std::io;

/// Prints name and count of each; an error names those that are 0.
pub fn print(rows: &[(String, u64)]) -> io::Result<()> {
    for (name, met) in rows {
        println!("{met:>9} {name}");
    }
    let unmet = rows.iter().filter(|(_, met)| *met == 0);
    let unmet: Vec<&str> = unmet.map(|(name, _)| name.as_str()).collect();
    if unmet.is_empty() {
        Ok(())
    } else {
        Err(io::Error::other(format!("never met: {}", unmet.join(", "))))
    }
}
