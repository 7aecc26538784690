//! Writes the cases of a set.

use crate::body::{Body, Pair};
use crate::limits::Limit;
use cases::factor::Factor;
use cases::random::Random;
use std::io::{self, BufWriter, Stdout, Write};

pub struct Writer {
    pub random: Random,
    output: BufWriter<Stdout>,
    set: String,
    count: usize,
}

impl Writer {
    pub fn new(set: &str, random: Random) -> Self {
        let output = BufWriter::with_capacity(1 << 20, io::stdout());
        Writer { random, output, set: set.to_string(), count: 0 }
    }

    pub fn finish(&mut self) -> io::Result<()> {
        self.output.flush()
    }

    fn write(&mut self, kind: &str, name: &str, body: &Body) -> io::Result<()> {
        self.count += 1;
        write!(self.output, "case {name} {kind}\n{}end\n", body.text())
    }

    /// A case with the next number.
    pub fn case(&mut self, kind: &str, body: &Body) -> io::Result<()> {
        self.write(kind, &format!("{}-{}", self.set, self.count), body)
    }

    /// A case with a name of its own.
    pub fn named(&mut self, kind: &str, name: &str, body: &Body) -> io::Result<()> {
        self.write(kind, &format!("{}:{name}", self.set), body)
    }

    /// The fields of a call for selected entries, with pairs to look up: all where there are few, else some.
    pub fn entries_body(&mut self, factor: &Factor, requests: &[Pair], limit: Limit) -> Body {
        let most = factor.n + 1;
        let lookups: Vec<Pair> = match factor.n {
            0 => vec![(0, 0)],
            1..=3 => (0..most).flat_map(|r| (0..most).map(move |c| (r, c))).collect(),
            _ => (0..6).map(|_| (self.random.below(most), self.random.below(most))).collect(),
        };
        Body::new().factor(factor).requests(factor.n, requests).field("limit", limit).lookups(&lookups)
    }

    pub fn entries(&mut self, factor: &Factor, requests: &[Pair], limit: Limit) -> io::Result<()> {
        let body = self.entries_body(factor, requests, limit);
        self.case("entries", &body)
    }

    /// A case of selected entries with a name and the lines that its answer must have.
    pub fn named_entries(
        &mut self,
        name: &str,
        factor: &Factor,
        requests: &[Pair],
        limit: Limit,
        expected: &[&str],
    ) -> io::Result<()> {
        let body = self.entries_body(factor, requests, limit).expect(expected);
        self.named("entries", name, &body)
    }
}
