//! The text form of ../../../replay/README.md: reading cases, and writing the fields of cases and answers.

use std::fmt::Write;
use std::io::BufRead;
use std::process::exit;

pub struct Case {
    pub name: String,
    pub kind: String,
    fields: Vec<(String, Vec<String>)>,
}

impl Case {
    /// Ends the program: a fault of the text must not be taken for a panic of the Rust.
    pub fn fault(&self, what: &str) -> ! {
        eprintln!("case {} {}: {what}", self.name, self.kind);
        exit(2)
    }

    pub fn has(&self, name: &str) -> bool {
        self.fields.iter().any(|field| field.0 == name)
    }

    /// The words after a field's name.
    fn words(&self, name: &str) -> &[String] {
        match self.fields.iter().find(|field| field.0 == name) {
            Some(field) => &field.1,
            None => self.fault(&format!("no field {name}")),
        }
    }

    pub fn word(&self, name: &str) -> &str {
        self.words(name).first().unwrap_or_else(|| self.fault(&format!("{name} is empty")))
    }

    pub fn number(&self, name: &str) -> usize {
        self.read_number(name, self.word(name))
    }

    pub fn value(&self, name: &str) -> f64 {
        self.read_value(name, self.word(name))
    }

    /// A list's items, which stand after their number.
    fn items(&self, name: &str) -> &[String] {
        let count = self.number(name);
        let items = &self.words(name)[1..];
        if items.len() != count {
            self.fault(&format!("{name} has {} items, not {count}", items.len()));
        }
        items
    }

    pub fn numbers(&self, name: &str) -> Vec<usize> {
        self.items(name).iter().map(|word| self.read_number(name, word)).collect()
    }

    pub fn values(&self, name: &str) -> Vec<f64> {
        self.items(name).iter().map(|word| self.read_value(name, word)).collect()
    }

    /// The lines that the answer must have, as `generate` gives them.
    pub fn expected(&self) -> impl Iterator<Item = String> + '_ {
        self.fields.iter().filter(|field| field.0 == "expect").map(|field| field.1.join(" "))
    }

    fn read_number(&self, name: &str, word: &str) -> usize {
        word.parse().unwrap_or_else(|_| self.fault(&format!("{word} in {name} is no number")))
    }

    fn read_value(&self, name: &str, word: &str) -> f64 {
        match u64::from_str_radix(word, 16) {
            Ok(bits) if word.len() == 16 => f64::from_bits(bits),
            _ => self.fault(&format!("{word} in {name} is no value")),
        }
    }
}

/// The cases of a text, one by one.
pub struct Cases<R> {
    input: R,
}

impl<R: BufRead> Cases<R> {
    pub fn new(input: R) -> Self {
        Cases { input }
    }

    /// The words of the next line that has some and is no comment; none at the text's end.
    fn line(&mut self) -> Vec<String> {
        loop {
            let mut line = String::new();
            if self.input.read_line(&mut line).unwrap_or_else(|error| stop(&error.to_string())) == 0 {
                return Vec::new();
            }
            if !line.starts_with('#') && !line.trim().is_empty() {
                return line.split_ascii_whitespace().map(str::to_string).collect();
            }
        }
    }
}

fn stop(what: &str) -> ! {
    eprintln!("cases: {what}");
    exit(2)
}

impl<R: BufRead> Iterator for Cases<R> {
    type Item = Case;

    fn next(&mut self) -> Option<Case> {
        let mut case = match self.line().as_slice() {
            [] => return None,
            [word, name, kind] if word == "case" => Case { name: name.clone(), kind: kind.clone(), fields: Vec::new() },
            words => stop(&format!("outside a case: {}", words.join(" "))),
        };
        loop {
            let mut words = self.line();
            match words.first().map(String::as_str) {
                None => case.fault("has no end"),
                Some("end") => return Some(case),
                Some(_) => {
                    let rest = words.split_off(1);
                    case.fields.push((words.remove(0), rest));
                }
            }
        }
    }
}

/// The digits of a value's bits.
pub fn digits(value: f64) -> String {
    format!("{:016x}", value.to_bits())
}

/// A value in an answer, where every NaN is one.
pub fn answered(value: f64) -> String {
    if value.is_nan() {
        "nan".to_string()
    } else {
        digits(value)
    }
}

/// A list field: its name, the number of its items, the items.
pub fn put_list(text: &mut String, name: &str, items: impl ExactSizeIterator<Item = String>) {
    write!(text, "{name} {}", items.len()).unwrap();
    for item in items {
        write!(text, " {item}").unwrap();
    }
    text.push('\n');
}

pub fn put_numbers(text: &mut String, name: &str, list: &[usize]) {
    put_list(text, name, list.iter().map(usize::to_string));
}
