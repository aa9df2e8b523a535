//! Writes what was measured to docs/BENCH.md.

use std::fs;
use std::io;
use std::path::Path;

/// All after this line of the document is not of the bench, and stays.
const KEPT: &str = "<!-- The tables end here. What follows is not written by bench/. -->\n";

const HEAD: &str = "# Measured

Times, memory and stack are written by `bench/` with `--write`; `bench/README.md` says what is measured and how to read it. A ratio is the
library's time over the baseline's: less is better, and the aim is 1.0 (1.2 for the replacements of 5.1
beside the UTF-8 test).
";

pub fn write(file: &Path, machine: &str, tables: &str) -> Result<(), String> {
    let failed = |error: io::Error| format!("{}: {error}", file.display());
    let before = if file.exists() { fs::read_to_string(file).map_err(failed)? } else { String::new() };
    let text = text(&before, machine, tables).ok_or_else(|| format!("{}: no line says where the tables end", file.display()))?;
    fs::write(file, text).map_err(failed)
}

/// Nothing where there was a text, and it is not known what of it is to stay.
fn text(before: &str, machine: &str, tables: &str) -> Option<String> {
    let kept = match before.split_once(KEPT) {
        Some((_, kept)) => kept,
        None if before.is_empty() => "",
        None => return None,
    };
    Some(format!("{HEAD}\n{machine}\n\n{tables}\n{KEPT}{kept}"))
}

#[cfg(test)]
mod tests {
    use super::*;

    #[test]
    fn what_follows_the_tables_stays() {
        let first = text("", "machine", "old tables").unwrap() + "\n## The cost of the proofs\n";
        let second = text(&first, "machine", "new tables").unwrap();
        assert!(second.contains("new tables") && !second.contains("old tables"));
        assert!(second.ends_with("-->\n\n## The cost of the proofs\n"));
        assert_eq!(text(&second, "machine", "new tables").unwrap(), second);
    }

    #[test]
    fn a_text_without_the_line_is_not_overwritten() {
        assert_eq!(text("# By hand\n", "machine", "tables"), None);
    }
}
