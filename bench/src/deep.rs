//! What the trial is given to see how deep it goes.

/// The number of a trial that would need the 201st level.
pub const TOO_DEEP: u32 = 28;
/// More than there are levels.
const REPEATS: usize = 210;
const CAPTURES: usize = 32;

pub struct Input {
    pub name: String,
    pub pattern: Vec<u8>,
    pub replacement: Vec<u8>,
    pub subject: Vec<u8>,
    pub room: usize,
}

impl Input {
    fn new(name: String, pattern: String, subject: String) -> Self {
        Self { name, pattern: pattern.into_bytes(), replacement: b"x".to_vec(), subject: subject.into_bytes(), room: 1024 }
    }
}

/// Items that take a level each, and what one of them matches.
const ITEMS: [(&str, &str); 5] = [("a*b*", "ab"), ("[a-m]*[n-z]*", "an"), ("a?", "a"), ("a-", "a"), (".-", "a")];

/// Each goes to the last level, and no farther: the items again and again, after 32 captures or without any. The one that begins with a
/// lazy repeat is the deepest trial that is known; `host/c/stack.c` runs it too.
pub fn inputs() -> Vec<Input> {
    let mut inputs: Vec<Input> = ITEMS.iter().map(|&(item, text)| captured(item, text)).collect();
    inputs.extend(ITEMS.iter().map(|&(item, text)| plain(item, text)));
    inputs.push(nested());
    inputs.push(behind_lazy());
    inputs
}

fn plain(item: &str, text: &str) -> Input {
    Input::new(format!("`{item}` again and again"), item.repeat(REPEATS), text.repeat(REPEATS))
}

/// All captures opened and all but one closed, then the items.
fn captured(item: &str, text: &str) -> Input {
    let pattern = format!("{}c{}{})", "(".repeat(CAPTURES), ")".repeat(CAPTURES - 1), item.repeat(REPEATS));
    Input::new(format!("{CAPTURES} captures, then `{item}` again and again"), pattern, format!("c{}", text.repeat(REPEATS)))
}

/// Captures inside of each other, each closed, and then items, since captures alone have 65 levels at most.
fn nested() -> Input {
    let pattern = format!("{}a{}{}", "(".repeat(CAPTURES), ")".repeat(CAPTURES), "a?".repeat(REPEATS));
    Input::new(format!("{CAPTURES} captures in each other, then `a?` again and again"), pattern, "a".repeat(REPEATS))
}

/// A lazy repeat, and all captures opened and closed behind it, so that no level is one of an attempt's own; then lazy repeats.
fn behind_lazy() -> Input {
    let pattern = format!(".-{}.{}{}", "(".repeat(CAPTURES), ")".repeat(CAPTURES), ".-".repeat(REPEATS));
    Input::new(format!("`.-`, {CAPTURES} captures, then `.-` again and again"), pattern, "aa".to_owned())
}

/// Trials of few levels, with every number and every kind of an error.
pub fn shallow() -> Vec<Input> {
    let small = |pattern: &str, replacement: &str, subject: &str, room: usize| Input {
        name: format!("`{pattern}` with `{replacement}`"),
        pattern: pattern.into(),
        replacement: replacement.into(),
        subject: subject.into(),
        room,
    };
    let mut closed = small(&format!("{}{}", "(".repeat(CAPTURES), ")".repeat(CAPTURES)), "%9%1", "abc", 1024);
    closed.name = format!("{CAPTURES} captures in each other, all closed");
    let mut many = small(&"(".repeat(CAPTURES + 1), "", "a", 8);
    many.name = format!("{} captures", CAPTURES + 1);
    vec![
        closed,
        many,
        small("%d+", "<%0>", "trip 17", 1024),
        small("(%w+)=(%w+)", "%2=%1", "state=run", 1024),
        small("%b()", "", "(a(b)c)", 1024),
        small("%f[%w]%w+", "%0", "a bc", 1024),
        small("(a)%1", "%1", "aaaa", 1024),
        small("", "-", "abc", 1024),
        small("", "-", "abc", 2),
        small("^[^%d]-$", "%0", "abc", 1024),
        small("%", "", "a", 8),
        small("[a", "", "a", 8),
        small("%f", "", "a", 8),
        small("%b(", "", "a", 8),
        small(")", "", "a", 8),
        small("(", "", "a", 8),
        small("%1", "", "a", 8),
        small("a", "%x", "a", 8),
        small("a", "%", "a", 8),
        small("a", "%2", "a", 8),
        small("a.-b.-c.-d.-@", "", &"abcd".repeat(100), 1024),
    ]
}
