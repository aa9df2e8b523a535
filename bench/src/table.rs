//! What was measured, as tables that are read as text and as Markdown.

use std::fmt::{self, Write as _};

use crate::measure::{Measured, Spread, TIMES};

#[derive(Default)]
pub struct Tables {
    rows: Vec<Vec<String>>,
    growths: Vec<Vec<String>>,
    memory: Vec<Vec<String>>,
    stack: Vec<Vec<String>>,
    notes: Vec<String>,
}

impl Tables {
    /// `beside` names the baseline.
    pub fn row(&mut self, workload: &str, beside: &str, measured: Measured) {
        let Measured { library, baseline, ratio: Spread { least, median, greatest } } = measured;
        eprintln!("{workload} beside {beside}: {median:.2}");
        let mut row = vec![workload.to_owned(), beside.to_owned(), time_name(library), time_name(baseline)];
        row.extend([median, least, greatest].map(|ratio| format!("{ratio:.2}")));
        self.rows.push(row);
    }

    /// `unit` is the text at 1 x. The last column has the rounds' least and greatest at the most text.
    pub fn growth(&mut self, workload: &str, unit: &str, growth: &[Spread]) {
        let mut row = vec![workload.to_owned(), unit.to_owned()];
        row.extend(growth.iter().map(|spread| format!("{:.2}", spread.median)));
        let last = growth.last().map(|spread| format!("{:.2} to {:.2}", spread.least, spread.greatest));
        row.extend(last);
        self.growths.push(row);
    }

    /// `measure` says what the value is of the workload.
    pub fn memory(&mut self, workload: &str, measure: &str, value: &str) {
        eprintln!("{workload}: {measure}: {value}");
        self.memory.push([workload, measure, value].map(str::to_owned).to_vec());
    }

    pub fn stack(&mut self, function: &str, input: &str, bytes: usize) {
        eprintln!("{function} on {input}: {bytes} bytes of stack");
        self.stack.push(vec![function.to_owned(), input.to_owned(), bytes.to_string()]);
    }

    /// What was not measured, and why.
    pub fn note(&mut self, note: String) {
        eprintln!("{note}");
        self.notes.push(note);
    }
}

/// With three digits that count.
fn time_name(seconds: f64) -> String {
    let (value, unit) = match seconds {
        1.0.. => (seconds, "s"),
        1e-3.. => (seconds * 1e3, "ms"),
        1e-6.. => (seconds * 1e6, "µs"),
        _ => (seconds * 1e9, "ns"),
    };
    let decimals = match value {
        100.0.. => 0,
        10.0.. => 1,
        _ => 2,
    };
    format!("{value:.decimals$} {unit}")
}

const TIMES_ABOUT: &str = "The time of a call, and the library's over the baseline's in the same round.";
const GROWTH_ABOUT: &str = "The library's time for a byte (or a step) at 1, 2, 4 and 8 times the text over that at 1.";
const MEMORY_ABOUT: &str =
    "The library allocates nothing, and what `bodies` has in memory does not depend on the input's length.";
const STACK_ABOUT: &str = "The greatest stack of a call, in bytes: that of an empty function is not counted.";

impl fmt::Display for Tables {
    fn fmt(&self, f: &mut fmt::Formatter<'_>) -> fmt::Result {
        let times = TIMES.map(|times| format!("{times} x"));
        let [one, two, four, eight] = times.each_ref().map(String::as_str);
        let sections = [
            section(
                "Times",
                TIMES_ABOUT,
                &["workload", "beside", "library", "baseline", "ratio", "least", "greatest"],
                &self.rows,
            ),
            section(
                "Growth",
                GROWTH_ABOUT,
                &["workload", "text at 1 x", one, two, four, eight, "rounds at the last"],
                &self.growths,
            ),
            section("Memory", MEMORY_ABOUT, &["workload", "measure", "value"], &self.memory),
            section("Stack", STACK_ABOUT, &["function", "input", "bytes"], &self.stack),
        ];
        let parts: Vec<String> =
            sections.into_iter().flatten().chain(self.notes.iter().map(|note| format!("{note}\n"))).collect();
        write!(f, "{}", parts.join("\n"))
    }
}

/// Nothing where nothing was measured.
fn section(title: &str, about: &str, head: &[&str], rows: &[Vec<String>]) -> Option<String> {
    let head: Vec<String> = head.iter().map(|&name| name.to_owned()).collect();
    (!rows.is_empty()).then(|| format!("## {title}\n\n{about}\n\n{}", lined_up(&head, rows)))
}

/// The columns of words, which come first.
const WORDS: usize = 2;

/// A Markdown table with columns of even width, the numbers right-justified.
fn lined_up(head: &[String], rows: &[Vec<String>]) -> String {
    let widths: Vec<usize> = (0..head.len())
        .map(|column| {
            rows.iter().map(|row| &row[column]).chain([&head[column]]).map(|cell| cell.chars().count()).max().unwrap_or(0)
        })
        .collect();
    let mut table = String::new();
    let mut line = |cells: &[String]| {
        for (column, (cell, &width)) in cells.iter().zip(&widths).enumerate() {
            let padded = if column < WORDS { format!("{cell:<width$}") } else { format!("{cell:>width$}") };
            write!(table, "| {padded} ").expect("a string takes any text");
        }
        table.push_str("|\n");
    };
    line(head);
    let rule: Vec<String> = widths
        .iter()
        .enumerate()
        .map(|(column, &width)| if column < WORDS { "-".repeat(width) } else { format!("{}:", "-".repeat(width - 1)) })
        .collect();
    line(&rule);
    rows.iter().for_each(|row| line(row));
    table
}

#[cfg(test)]
mod tests {
    use super::*;

    #[test]
    fn only_what_was_measured_is_shown() {
        let mut tables = Tables::default();
        tables.memory("bodies, 10 MB", "most ever resident", "1204 KiB");
        tables.stack("luck_check_date", "`%`, version 4", 120);
        tables.note("A note.".to_owned());
        let table = "| function        | input          | bytes |\n| --------------- | -------------- | ----: |\n";
        let shown = tables.to_string();
        assert!(shown.starts_with("## Memory\n\n") && !shown.contains("## Times") && !shown.contains("## Growth"));
        assert!(shown.contains(table) && shown.ends_with("|   120 |\n\nA note.\n"), "{shown}");
    }
}
