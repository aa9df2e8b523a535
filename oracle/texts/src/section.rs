//! The parts of a run, with a line about each.

use std::time::Instant;

/// Runs a part, which gives what there is to say of it, and says that and how long it took.
pub fn run(name: &str, part: impl FnOnce() -> String) {
    let start = Instant::now();
    let said = part();
    println!("{name}: {said}, {:.1} s", start.elapsed().as_secs_f64());
}

/// Asks about each text of a part, and counts them.
pub fn ask_all(part: impl FnOnce(&mut dyn FnMut(&[u8])), mut ask: impl FnMut(&[u8])) -> u64 {
    let mut count = 0;
    part(&mut |text| {
        ask(text);
        count += 1;
    });
    count
}
