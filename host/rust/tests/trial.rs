//! The trial of gsub: document 01's examples, every ending, and the bytes of the output that must stay as they were.

use luck::Ending::{Done, OutputFull, Raised, StepsSpent, TooDeep};
use luck::Version::{Lua51, Lua54};
use luck::{Ending, RaisedKind, Trial, Version, raw};

const UNTOUCHED: u8 = 0xAA;
const ENOUGH: u32 = 1_000_000;

/// A trial with the inner `room` bytes of a larger buffer. The bytes around the written ones are as they were.
fn run(version: Version, texts: [&[u8]; 3], budget: u32, room: usize) -> (Trial, Vec<u8>) {
    let [subject, pattern, replacement] = texts;
    let mut buffer = vec![UNTOUCHED; room + 4];
    let trial = luck::gsub_trial(version, pattern, replacement, subject, budget, &mut buffer[2..2 + room]);
    let (before, rest) = buffer.split_at(2);
    let (written, after) = rest.split_at(trial.written);
    assert!(before.iter().chain(after).all(|byte| *byte == UNTOUCHED), "{trial:?}");
    (trial, written.to_vec())
}

fn trial(ending: Ending, written: usize, replacements: usize, steps: u32) -> Trial {
    let mut wanted = Trial::from(raw::Trial { number: raw::ACCEPTED, kind: 0, written, replacements, steps });
    wanted.ending = ending;
    wanted
}

#[test]
fn done() {
    let rows: [([&str; 3], &str, usize, u32); 8] = [
        (["abc", "%w*", "x"], "x", 1, 7),
        (["a", "a", "x"], "x", 1, 3),
        (["aaa", "a*", "x"], "x", 1, 7),
        (["aab", "a-b", "x"], "x", 1, 8),
        (["aba", "a", "x"], "xbx", 2, 6),
        (["", "", "x"], "x", 1, 2),
        (["ab", "", "x"], "xaxbx", 3, 6),
        (["trip 17", "%d+", "<%0>"], "trip <17>", 1, 10),
    ];
    for version in Version::ALL {
        for (texts, output, replacements, steps) in rows {
            let found = run(version, texts.map(str::as_bytes), ENOUGH, 20);
            let wanted = (trial(Done, output.len(), replacements, steps), output.as_bytes().to_vec());
            assert_eq!(found, wanted, "{texts:?}");
        }
    }
}

/// The check refuses such a pattern, and the trial runs it.
#[test]
fn reversed_ranges() {
    for version in Version::ALL {
        assert_eq!(run(version, [b"az-", b"[z-a]", b"x"], ENOUGH, 20), (trial(Done, 3, 0, 4), b"az-".to_vec()));
        assert_eq!(run(version, [b"az-", b"[^z-a]", b"x"], ENOUGH, 20), (trial(Done, 3, 3, 7), b"xxx".to_vec()));
        assert_eq!(run(version, [b"az-", b"([z-aa])", b"<%1>"], ENOUGH, 20), (trial(Done, 5, 1, 10), b"<a>z-".to_vec()));
    }
}

#[test]
fn empty() {
    for version in Version::ALL {
        assert_eq!(run(version, [b"", b"", b""], ENOUGH, 0), (trial(Done, 0, 1, 2), vec![]));
    }
}

/// The texts are bytes, and need not be UTF-8.
#[test]
fn any_bytes() {
    let (found, output) = run(Lua54, [b"\0\xFFa\0", b"[%z\xFF]", b"<\xFE\0>"], ENOUGH, 20);
    assert_eq!((found.ending, found.replacements), (Done, 3));
    assert_eq!(output, b"<\xFE\0><\xFE\0>a<\xFE\0>");
    assert_eq!(run(Lua54, [b"a\0b", b"\0b", b"x"], ENOUGH, 20), (trial(Done, 2, 1, 5), b"ax".to_vec()));
}

#[test]
fn output_full() {
    assert_eq!(run(Lua54, [b"a", b"a", b"xx"], ENOUGH, 1), (trial(OutputFull, 1, 1, 2), b"x".to_vec()));
    assert_eq!(run(Lua54, [b"a", b"a", b"xx"], ENOUGH, 0), (trial(OutputFull, 0, 1, 2), vec![]));
    assert_eq!(run(Lua54, [b"a", b"a", b"xx"], ENOUGH, 2), (trial(Done, 2, 1, 3), b"xx".to_vec()));
    assert_eq!(run(Lua54, [b"b", b"a", b"x"], ENOUGH, 0), (trial(OutputFull, 0, 0, 1), vec![]));
}

#[test]
fn steps_spent() {
    for budget in 0..3 {
        let wanted: &[u8] = if budget < 2 { b"" } else { b"x" };
        let (found, output) = run(Lua54, [b"a", b"a", b"x"], budget, 20);
        assert_eq!((found.ending, found.steps), (StepsSpent, budget));
        assert_eq!((output.as_slice(), found.replacements), (wanted, wanted.len()));
    }
    assert_eq!(run(Lua54, [b"a", b"a", b"x"], 3, 20).0.ending, Done);
    assert_eq!(run(Lua54, [b"a", b"a", b"x"], u32::MAX, 20).0.ending, Done);
}

/// The level comes before the step.
#[test]
fn too_deep() {
    let (subject, pattern) = ([b'a'; 200], b"a?".repeat(200));
    let texts: [&[u8]; 3] = [&subject, &pattern, b"x"];
    assert_eq!(run(Lua54, texts, ENOUGH, 20).0, trial(TooDeep, 0, 0, 200));
    assert_eq!(run(Lua54, texts, 200, 20).0, trial(TooDeep, 0, 0, 200));
    assert_eq!(run(Lua54, texts, 199, 20).0, trial(StepsSpent, 0, 0, 199));
    assert_eq!(run(Lua54, [&subject[1..], &pattern[2..], b"x"], ENOUGH, 20).0.ending, Done);
}

/// The deepest trials that are known (`host/c/stack.c`), on a thread with the stack that the documentation asks for.
#[test]
fn stack() {
    let captures = |item: &str, closed| ["(".repeat(32), item.to_owned(), ")".repeat(closed)].concat();
    let rows = [
        (captures("c", 31) + &"a*b*".repeat(68) + ")", "c".to_owned() + &"ab".repeat(68)),
        (captures("c", 31) + &"a-".repeat(136) + ")", "c".to_owned() + &"a".repeat(136)),
        (".-".to_owned() + &captures(".", 32) + &".-".repeat(136), "a".repeat(137)),
    ];
    for (pattern, subject) in rows {
        let run = move || run(Lua54, [subject.as_bytes(), pattern.as_bytes(), b"x"], ENOUGH, 20).0.ending;
        let thread = std::thread::Builder::new().stack_size(512 * 1024).spawn(run).unwrap();
        assert_eq!(thread.join().unwrap(), TooDeep);
    }
}

#[test]
fn messages() {
    let rows = [
        (Done, "done"),
        (OutputFull, "the output is full"),
        (StepsSpent, "the budget of steps is spent"),
        (TooDeep, "too deep: real Lua raises \"pattern too complex\""),
        (Raised(RaisedKind::MissingBracket), "missing ']'"),
        (Ending::Other { number: 29, kind: 11 }, "refusal 29, kind 11"),
    ];
    for (ending, message) in rows {
        assert_eq!(ending.to_string(), message);
    }
}

#[test]
fn raised() {
    let rows: [([&str; 2], RaisedKind, &str); 10] = [
        (["%", ""], RaisedKind::EndsWithPercent, "pattern ends with '%'"),
        (["[", ""], RaisedKind::MissingBracket, "missing ']'"),
        (["%f", ""], RaisedKind::MissingSet, "missing '[' after '%f'"),
        (["%b", ""], RaisedKind::MissingArguments, "missing arguments to '%b'"),
        ([")", ""], RaisedKind::InvalidCapture, "invalid pattern capture"),
        (["(", "%1"], RaisedKind::UnfinishedCapture, "unfinished capture"),
        (["%1", ""], RaisedKind::PatternIndex, "invalid capture index in the pattern"),
        (["(((((((((((((((((((((((((((((((((", ""], RaisedKind::TooManyCaptures, "too many captures"),
        (["", "%"], RaisedKind::InvalidPercent, "invalid use of '%' in the replacement"),
        (["", "%2"], RaisedKind::ReplacementIndex, "invalid capture index in the replacement"),
    ];
    for (number, (texts, kind, message)) in (1..).zip(rows) {
        let [pattern, replacement] = texts.map(str::as_bytes);
        let (found, output) = run(Lua54, [b"", pattern, replacement], ENOUGH, 20);
        assert_eq!((found.ending, output), (Raised(kind), vec![]), "{texts:?}");
        assert_eq!((kind.number(), RaisedKind::from_number(number)), (number, Some(kind)));
        assert_eq!(kind.to_string(), message);
        assert_eq!(run(Lua54, [b"", pattern, replacement], 0, 20).0, trial(StepsSpent, 0, 0, 0));
    }
    for number in [0, 11, u32::MAX] {
        assert_eq!(RaisedKind::from_number(number), None);
    }
}

/// What was written before the error stays written.
#[test]
fn raised_late() {
    let found = run(Lua54, [b"ab", b"(b)", b"x%2"], ENOUGH, 20);
    assert_eq!((found.0.ending, found.0.replacements), (Raised(RaisedKind::ReplacementIndex), 1));
    assert_eq!(found.1, b"ax");
}

/// 5.1 writes the byte after a `%`, and a zero byte for a final one.
#[test]
fn replacement_of_5_1() {
    assert_eq!(run(Lua51, [b"", b"", b"%"], ENOUGH, 20), (trial(Done, 1, 1, 2), vec![0]));
    assert_eq!(run(Lua51, [b"", b"", b"%x"], ENOUGH, 20), (trial(Done, 1, 1, 2), b"x".to_vec()));
    for version in Version::ALL.into_iter().skip(1) {
        assert_eq!(run(version, [b"", b"", b"%x"], ENOUGH, 20).0.ending, Raised(RaisedKind::InvalidPercent));
    }
}

#[test]
fn other_numbers() {
    for (number, kind) in [(25, 0), (29, 0), (29, 11), (1, 0), (u32::MAX, u32::MAX)] {
        let answer = raw::Trial { number, kind, written: 0, replacements: 0, steps: 0 };
        assert_eq!(Trial::from(answer), trial(Ending::Other { number, kind }, 0, 0, 0));
    }
}
