//! Gives the program `bodies` inputs of lines, cut into pieces, and compares every byte that it writes with the reference.

use std::fmt;
use std::io::{self, Read};
use std::path::Path;
use std::time::Instant;

use crate::comparison::left_out::LeftOut;
use crate::comparison::report::Shown;
use crate::lines::long::{self, LongInput};
use crate::lines::program::{self, Run};
use crate::lines::texts::{self, Lines};
use crate::lines::{self, LONGEST, failures, heads};
use crate::store::lines as stored;
use crate::texts::random::Random;

/// Bytes that are read beyond those wanted, so that a program that writes too much is told from one that does not.
const EXCESS: usize = 1000;

pub struct LineComparison<'program> {
    program: &'program Path,
    random: Random,
    inputs: u64,
    lines: u64,
    differing: u64,
    /// Lines with 39.
    left_out: LeftOut,
    /// The first differences.
    shown: Vec<String>,
}

impl<'program> LineComparison<'program> {
    const MOST_SHOWN: usize = 12;

    /// All inputs, of them `count` random lines. Fails where the program cannot be run.
    pub fn run(program: &'program Path, seed: u64, count: u64) -> io::Result<Self> {
        let mut comparison = Self {
            program,
            random: Random::new(seed),
            inputs: 0,
            lines: 0,
            differing: 0,
            left_out: LeftOut::default(),
            shown: Vec::new(),
        };
        comparison.stored()?;
        comparison.heads()?;
        comparison.random_lines(seed, count)?;
        comparison.empty_lines()?;
        comparison.endings()?;
        comparison.single_bytes(seed)?;
        comparison.cuts()?;
        comparison.short_totals()?;
        comparison.long_totals()?;
        comparison.failures()?;
        Ok(comparison)
    }

    /// Whether anything differs, or what was left out of luck's answers is not just what luck has none for.
    pub const fn has_failed(&self) -> bool {
        self.differing > 0 || self.left_out.has_failed() || self.left_out.calls() == 0
    }

    fn stored(&mut self) -> io::Result<()> {
        self.section("the stored lines, and no line", |comparison| {
            match stored::input() {
                Ok(input) => {
                    comparison.in_one(&input)?;
                    comparison.in_pieces(&input)?;
                }
                Err(difference) => comparison.differ(|| difference),
            }
            comparison.in_one(b"")
        })
    }

    fn heads(&mut self) -> io::Result<()> {
        self.section("heads of hostile bytes", |comparison| comparison.in_pieces(&heads::products()))?;
        self.section("heads with any byte in one place", |comparison| comparison.in_pieces(&heads::any_byte()))?;
        self.section("counts of captures", |comparison| comparison.in_pieces(&heads::counts()))?;
        self.section("lines of up to 5 symbols", |comparison| comparison.in_pieces(&heads::short_lines()))
    }

    fn random_lines(&mut self, seed: u64, count: u64) -> io::Result<()> {
        const LINES_OF_AN_INPUT: u64 = 200_000;
        self.section(&format!("{count} random lines, seed {seed}"), |comparison| {
            let mut lines = Lines::new(seed);
            let mut left = count;
            while left > 0 {
                let now = left.min(LINES_OF_AN_INPUT);
                comparison.in_pieces(&lines.input(now as usize))?;
                left -= now;
            }
            Ok(())
        })
    }

    /// A row is longer than an empty line: these give the most rows for what is read.
    fn empty_lines(&mut self) -> io::Result<()> {
        self.section("empty lines", |comparison| {
            let input = vec![b'\n'; 300_000];
            comparison.in_one(&input)?;
            comparison.in_pieces(&input)
        })
    }

    /// Each last line with its newline and without, as the only line and after others.
    fn endings(&mut self) -> io::Result<()> {
        self.section("last lines with and without a newline", |comparison| {
            let before = [
                vec![],
                b"\n".to_vec(),
                b"F1   %d\n".to_vec(),
                line_of(LONGEST + 1, b"\n"),
                line_of(200_000, b"\n"),
                vec![b'\n'; 5000],
            ];
            for before in &before {
                for last in last_lines() {
                    comparison.in_pieces(&[before.as_slice(), &last].concat())?;
                    comparison.in_pieces(&[before.as_slice(), &last, b"\n"].concat())?;
                }
            }
            Ok(())
        })
    }

    fn single_bytes(&mut self, seed: u64) -> io::Result<()> {
        self.section("cut into single bytes", |comparison| {
            let mut input = Lines::new(seed).input(100);
            input.extend(line_of(LONGEST - 1, b"%\n"));
            input.extend(line_of(LONGEST + 1, b"\n\n\n"));
            input.extend(b"P1   (a");
            let pieces: Vec<&[u8]> = input.chunks(1).collect();
            comparison.compare(&input, &pieces)?;
            // As many reads as a count of 16 bits does not hold.
            let input = vec![b'\n'; 70_000];
            let pieces: Vec<&[u8]> = input.chunks(1).collect();
            comparison.compare(&input, &pieces)
        })
    }

    /// A short input, and one with lines about the limit, in two pieces: cut at every place, or at those near the line's ends.
    fn cuts(&mut self) -> io::Result<()> {
        const SHORT: &[u8] =
            b"F1   %d%s\nG4 1 %2\nP1   [^]\n\n\nF\nG432 %9\r\nD9   \nK3   \xC3\xA9\nS6   c4\0\nF2   %\xFF\nP1   (";
        self.section("cut at each place", |comparison| {
            for place in 0..=SHORT.len() {
                comparison.in_two(SHORT, place)?;
            }
            let long = [line_of(LONGEST, b"\n"), line_of(LONGEST + 1, b"\n"), b"F1   %d\n".to_vec()].concat();
            for line_end in [LONGEST, 2 * LONGEST + 2] {
                for place in line_end - 6..line_end + 8 {
                    comparison.in_two(&long, place)?;
                }
            }
            Ok(())
        })
    }

    /// Of few lines none, all and each number between are refused, at any places, and all of them with the same number.
    fn short_totals(&mut self) -> io::Result<()> {
        const MOST: usize = 11;
        const ACCEPTED: &[u8] = b"F1   %d\n";
        self.section("totals of short inputs", |comparison| {
            let too_long = line_of(LONGEST + 1, b"\n");
            let each_refused: [&[u8]; 6] = [b"F7   \n", b"\n", &too_long, b"F1   \xFF\n", b"P1   (\n", b"G4 1 %2\n"];
            for line in each_refused {
                for read in 0..=MOST {
                    for refused in 0..=read {
                        let mut lines = vec![ACCEPTED; read - refused];
                        (0..refused).for_each(|_| lines.insert(comparison.random.below(lines.len() + 1), line));
                        comparison.in_pieces(&lines.concat())?;
                    }
                }
            }
            Ok(())
        })
    }

    fn long_totals(&mut self) -> io::Result<()> {
        self.section("totals of each length", |comparison| {
            long::numbers().iter().try_for_each(|input| comparison.compare_long(input))
        })?;
        self.section("totals about the largest", |comparison| {
            long::largest().iter().try_for_each(|input| comparison.compare_long(input))
        })
    }

    fn failures(&mut self) -> io::Result<()> {
        self.section("reads and writes that fail", |comparison| {
            for failure in failures::all() {
                comparison.inputs += 1;
                if let Some(difference) = failure.difference(comparison.program)? {
                    comparison.differ(|| format!("{failure}: {difference}"));
                }
            }
            Ok(())
        })
    }

    fn in_one(&mut self, input: &[u8]) -> io::Result<()> {
        self.compare(input, &[input])
    }

    fn in_two(&mut self, input: &[u8], place: usize) -> io::Result<()> {
        self.compare(input, &<[&[u8]; 2]>::from(input.split_at(place)))
    }

    /// In pieces of 1 to 100,000 bytes, short ones as frequent as long ones.
    fn in_pieces(&mut self, input: &[u8]) -> io::Result<()> {
        const MOST: [usize; 5] = [10, 100, 1000, 10_000, 100_000];
        let mut pieces = Vec::new();
        let mut rest = input;
        while !rest.is_empty() {
            let most = MOST[self.random.below(MOST.len())];
            let (piece, after) = rest.split_at(rest.len().min(1 + self.random.below(most)));
            pieces.push(piece);
            rest = after;
        }
        self.compare(input, &pieces)
    }

    fn compare(&mut self, input: &[u8], pieces: &[&[u8]]) -> io::Result<()> {
        let wanted = lines::output(input);
        let most = wanted.len() + EXCESS;
        let mut found = Vec::new();
        let run = program::run(self.program, pieces.iter().copied(), |stdout| {
            stdout.take(most as u64).read_to_end(&mut found).map(|length| length < most)
        })?;
        self.inputs += 1;
        self.rows(input, &wanted, &found);
        self.left_out(input, &found);
        self.ending(run, || format!("{} pieces, {}", pieces.len(), Shown(input)));
        Ok(())
    }

    fn compare_long(&mut self, input: &LongInput) -> io::Result<()> {
        let (by_hand, reference) = (input.by_hand(), input.totals().to_string());
        if by_hand != reference {
            self.differ(|| format!("{input}: the totals by hand `{by_hand}`, the reference `{reference}`"));
        }
        let run = program::run(self.program, input.pieces(), |stdout| self.read_long(input, stdout))?;
        self.inputs += 1;
        self.lines += input.totals().read;
        self.ending(run, || input.to_string());
        Ok(())
    }

    /// Compares the rows block by block, and then the totals, up to the first difference. Whether the output came to its end.
    fn read_long(&mut self, input: &LongInput, stdout: &mut impl Read) -> io::Result<bool> {
        let mut found = Vec::new();
        let mut before = 0;
        for wanted in input.rows() {
            found.clear();
            stdout.take(wanted.len() as u64).read_to_end(&mut found)?;
            if found != wanted {
                self.differ(|| format!("{input}: {}", wrong_row(wanted, &found, before)));
                return Ok(found.len() < wanted.len());
            }
            before += wanted.split_inclusive(|&byte| byte == b'\n').count();
        }
        let wanted = format!("{}\n", input.by_hand()).into_bytes();
        let most = wanted.len() + EXCESS;
        found.clear();
        stdout.take(most as u64).read_to_end(&mut found)?;
        if found != wanted {
            self.differ(|| format!("{input}: the totals: {}", wanted_and_found(Some(&wanted), Some(&found))));
        }
        Ok(found.len() < most)
    }

    /// Where the program was stopped, a difference is known already.
    fn ending(&mut self, run: Option<Run>, input: impl Fn() -> String) {
        let Some(Run { status, has_read_all }) = run else { return };
        if !has_read_all {
            self.differ(|| format!("{}: the input was not read to its end", input()));
        }
        if !status.success() {
            self.differ(|| format!("{}: ended with {status}", input()));
        }
    }

    /// The rows one by one, and then the totals: where one is missing, all after it stand in a wrong place.
    fn rows(&mut self, input: &[u8], wanted: &[u8], found: &[u8]) {
        self.lines += lines::lines(input).count() as u64;
        if wanted == found {
            return;
        }
        let mut lines = lines::lines(input).zip(1..);
        let [mut wanted, mut found] = [wanted, found].map(|rows| rows.split_inclusive(|&byte| byte == b'\n'));
        loop {
            let line = lines.next();
            match (wanted.next(), found.next()) {
                (None, None) => return,
                (wanted, found) if wanted == found => {}
                (wanted, found) => self.differ(|| {
                    let place = match line {
                        Some((line, number)) => format!("line {number} {}", Shown(line)),
                        None if wanted.is_some() => format!("the totals of {}", Shown(input)),
                        None => format!("after the totals of {}", Shown(input)),
                    };
                    format!("{place}: {}", wanted_and_found(wanted, found))
                }),
            }
        }
    }

    /// The rows found beside luck's own.
    fn left_out(&mut self, input: &[u8], found: &[u8]) {
        let mut found = found.split_inclusive(|&byte| byte == b'\n');
        for line in lines::lines(input) {
            let by_luck = format!("{}\n", lines::row_by_luck(line));
            let is_first_fault = lines::is_first_fault(line);
            self.left_out.call(is_first_fault.is_some(), found.next() == Some(by_luck.as_bytes()));
            if let Some(is_first_fault) = is_first_fault {
                self.left_out.text(is_first_fault);
            }
        }
    }

    fn differ(&mut self, details: impl FnOnce() -> String) {
        self.differing += 1;
        if self.shown.len() < Self::MOST_SHOWN {
            self.shown.push(details());
        }
    }

    /// Runs a part of the comparison and says how many lines it had and how long it took.
    fn section(&mut self, name: &str, part: impl FnOnce(&mut Self) -> io::Result<()>) -> io::Result<()> {
        let (start, lines, inputs) = (Instant::now(), self.lines, self.inputs);
        part(self)?;
        let (lines, inputs) = (self.lines - lines, self.inputs - inputs);
        println!("{name}: {lines} lines, {inputs} inputs, {:.1} s", start.elapsed().as_secs_f64());
        Ok(())
    }
}

impl fmt::Display for LineComparison<'_> {
    fn fmt(&self, f: &mut fmt::Formatter<'_>) -> fmt::Result {
        for difference in &self.shown {
            writeln!(f, "difference: {difference}")?;
        }
        let hidden = self.differing - self.shown.len() as u64;
        if hidden > 0 {
            writeln!(f, "and {hidden} more")?;
        }
        writeln!(f, "left out of luck's, lines: {}", self.left_out)?;
        write!(f, "{} lines compared in {} inputs, {} differences", self.lines, self.inputs, self.differing)
    }
}

/// The first row that differs in a block, after so many other rows.
fn wrong_row(wanted: &[u8], found: &[u8], before: usize) -> String {
    let [wanted, mut found] = [wanted, found].map(|rows| rows.split_inclusive(|&byte| byte == b'\n'));
    let mut rows = wanted.map(|wanted| (wanted, found.next())).zip(before + 1..);
    let wrong = rows.find(|&((wanted, found), _)| found != Some(wanted));
    let ((wanted, found), number) = wrong.expect("the blocks differ, and the one found is not the longer one");
    format!("line {number}: {}", wanted_and_found(Some(wanted), found))
}

fn wanted_and_found(wanted: Option<&[u8]>, found: Option<&[u8]>) -> String {
    let [wanted, found] = [wanted, found].map(|row| row.map_or("nothing".to_owned(), |row| Shown(row).to_string()));
    format!("wanted {wanted}, found {found}")
}

/// A format of so many bytes, and what is to stand after it.
fn line_of(length: usize, after: &[u8]) -> Vec<u8> {
    [b"F1   ".as_slice(), &vec![b'a'; length - texts::HEAD], after].concat()
}

fn last_lines() -> Vec<Vec<u8>> {
    const SHORT: [&[u8]; 14] = [
        b"",
        b"F",
        b"F1  ",
        b"F1   ",
        b"F1   %d",
        b"P1   (a",
        b"G4 1 %2",
        b"D7   %Q",
        b"\r",
        b"\0",
        b"F1   a\r",
        b"F1   a\0",
        b"K3   \xFF",
        b"S3   b\xC3",
    ];
    const LENGTHS: [usize; 12] = [4004, 4005, 4006, 4007, 4095, 4096, 4097, 8192, 65_535, 65_536, 70_000, 200_000];
    let long = LENGTHS.iter().map(|&length| line_of(length, b""));
    SHORT.iter().map(|line| line.to_vec()).chain(long).collect()
}
