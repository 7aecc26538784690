//! The text form of cases and answers: `case ID KIND`, a line for each field, `end`.

use crate::subjects::{FactorLists, OperatorLists};
use std::fmt::Write;
use std::io::{self, BufRead};

pub struct Block {
    pub name: String,
    pub kind: String,
    fields: Vec<(String, String)>,
}

impl Block {
    pub fn new(name: &str, kind: &str) -> Self {
        Block { name: name.to_string(), kind: kind.to_string(), fields: Vec::new() }
    }

    pub fn has(&self, name: &str) -> bool {
        self.fields.iter().any(|f| f.0 == name)
    }

    /// What stands after a field's name; nothing where the field is absent.
    pub fn field(&self, name: &str) -> &str {
        self.fields.iter().find(|f| f.0 == name).map_or("", |f| &f.1)
    }

    pub fn number(&self, name: &str) -> usize {
        self.field(name).parse().unwrap_or_else(|_| panic!("{}: {name} is no number", self.name))
    }

    pub fn items(&self, name: &str) -> impl Iterator<Item = &str> {
        self.field(name).split_ascii_whitespace().skip(1)
    }

    pub fn numbers(&self, name: &str) -> Vec<u32> {
        self.items(name).map(|x| x.parse().unwrap_or_else(|_| panic!("{}: {x} in {name}", self.name))).collect()
    }

    pub fn values(&self, name: &str) -> Vec<f64> {
        self.items(name).map(value).collect()
    }

    pub fn put(&mut self, name: &str, what: impl ToString) {
        self.fields.push((name.to_string(), what.to_string()));
    }

    pub fn put_numbers(&mut self, name: &str, list: &[u32]) {
        let words: Vec<String> = list.iter().map(u32::to_string).collect();
        self.put(name, format!("{} {}", list.len(), words.join(" ")));
    }

    pub fn put_values(&mut self, name: &str, list: &[f64]) {
        let words: Vec<String> = list.iter().map(|x| format!("{:016x}", x.to_bits())).collect();
        self.put(name, format!("{} {}", list.len(), words.join(" ")));
    }

    pub fn put_factor(&mut self, factor: &FactorLists) {
        self.put("n", factor.n);
        self.put_numbers("starts", &factor.starts);
        self.put_numbers("rows", &factor.rows);
        self.put_values("values", &factor.values);
    }

    pub fn put_operator(&mut self, operator: &OperatorLists) {
        self.put("ncols", operator.ncols);
        self.put_numbers("ostarts", &operator.row_starts);
        self.put_numbers("ocols", &operator.columns);
        self.put_values("oweights", &operator.weights);
    }

    pub fn text(&self) -> String {
        let mut text = format!("case {} {}\n", self.name, self.kind);
        for (name, what) in &self.fields {
            writeln!(text, "{name} {what}").unwrap();
        }
        text + "end\n"
    }

    /// The text with long lines cut.
    pub fn shown(&self) -> String {
        let cut = |line: &str| {
            if line.len() > 4000 {
                format!("{} ..", &line[..4000])
            } else {
                line.to_string()
            }
        };
        self.text().lines().map(cut).collect::<Vec<_>>().join("\n")
    }
}

/// A value by the digits of its bits, or `nan`.
pub fn value(digits: &str) -> f64 {
    if digits == "nan" {
        return f64::NAN;
    }
    f64::from_bits(u64::from_str_radix(digits, 16).unwrap_or_else(|_| panic!("no value: {digits}")))
}

/// The blocks of a text, one by one.
pub struct Blocks<R> {
    input: R,
    line: String,
}

impl<R: BufRead> Blocks<R> {
    pub fn new(input: R) -> Self {
        Blocks { input, line: String::new() }
    }

    /// The next block; an error where the text ends inside one.
    pub fn next(&mut self) -> io::Result<Option<Block>> {
        let mut block: Option<Block> = None;
        loop {
            self.line.clear();
            if self.input.read_line(&mut self.line)? == 0 {
                return if block.is_none() { Ok(None) } else { Err(io::ErrorKind::UnexpectedEof.into()) };
            }
            let line = self.line.trim_end();
            let (name, rest) = line.split_once(' ').unwrap_or((line, ""));
            match (name, &mut block) {
                ("", _) => {}
                (name, _) if name.starts_with('#') => {}
                ("case", _) => {
                    let (id, kind) = rest.split_once(' ').unwrap_or((rest, ""));
                    block = Some(Block::new(id, kind));
                }
                ("end", _) => return Ok(block),
                (name, Some(block)) => block.fields.push((name.to_string(), rest.to_string())),
                (_, None) => return Err(io::Error::other(format!("outside a case: {line}"))),
            }
        }
    }
}
