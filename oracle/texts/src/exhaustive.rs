//! Every text of an alphabet, shortest first.

/// What is put around a text.
pub struct Form {
    pub name: &'static str,
    open: &'static [u8],
    close: &'static [u8],
}

impl Form {
    pub const fn new(name: &'static str, open: &'static [u8], close: &'static [u8]) -> Self {
        Self { name, open, close }
    }
}

/// Every text of up to `most` symbols, in the form.
pub fn texts(symbols: &[&[u8]], most: usize, form: &Form, visit: &mut dyn FnMut(&[u8])) {
    for count in 0..=most {
        texts_of(symbols, count, form, visit);
    }
}

/// Counts through the texts of `count` symbols as an odometer does.
fn texts_of(symbols: &[&[u8]], count: usize, form: &Form, visit: &mut dyn FnMut(&[u8])) {
    let mut digits = vec![0; count];
    let mut text = Vec::new();
    loop {
        text.clear();
        text.extend_from_slice(form.open);
        digits.iter().for_each(|&digit: &usize| text.extend_from_slice(symbols[digit]));
        text.extend_from_slice(form.close);
        visit(&text);

        let Some(turning) = digits.iter().rposition(|&digit| digit + 1 < symbols.len()) else { return };
        digits[turning] += 1;
        digits[turning + 1..].fill(0);
    }
}
