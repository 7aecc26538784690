//! The fields of a case.

use cases::factor::{Column, Factor};
use cases::text::{digits, put_list, put_numbers};
use std::fmt::{Display, Write};

/// A row and a column of the inverse.
pub type Pair = (usize, usize);

#[derive(Clone)]
pub struct Body(String);

impl Body {
    pub fn new() -> Self {
        Body(String::new())
    }

    pub fn text(&self) -> &str {
        &self.0
    }

    pub fn field(mut self, name: &str, what: impl Display) -> Self {
        writeln!(self.0, "{name} {what}").unwrap();
        self
    }

    pub fn numbers(mut self, name: &str, list: &[usize]) -> Self {
        put_numbers(&mut self.0, name, list);
        self
    }

    pub fn values(mut self, name: &str, list: &[f64]) -> Self {
        put_list(&mut self.0, name, list.iter().map(|value| digits(*value)));
        self
    }

    pub fn factor(self, factor: &Factor) -> Self {
        self.field("n", factor.n)
            .numbers("starts", &factor.starts)
            .numbers("rows", &factor.rows)
            .values("values", &factor.values)
    }

    pub fn requests(self, dimension: usize, pairs: &[Pair]) -> Self {
        self.field("rdim", dimension).pairs("rrows", "rcols", pairs)
    }

    pub fn lookups(self, pairs: &[Pair]) -> Self {
        self.pairs("prows", "pcols", pairs)
    }

    fn pairs(self, rows: &str, columns: &str, pairs: &[Pair]) -> Self {
        let (r, c): (Vec<usize>, Vec<usize>) = pairs.iter().copied().unzip();
        self.numbers(rows, &r).numbers(columns, &c)
    }

    /// An operator's rows, each a list of columns and weights.
    pub fn operator(self, columns: usize, rows: &[Column]) -> Self {
        self.operator_terms(columns, &Factor::from_columns(rows))
    }

    /// An operator whose row starts, columns and weights are the lists of a factor.
    pub fn operator_terms(self, columns: usize, terms: &Factor) -> Self {
        self.field("ncols", columns)
            .numbers("ostarts", &terms.starts)
            .numbers("ocols", &terms.rows)
            .values("oweights", &terms.values)
    }

    pub fn expect(mut self, lines: &[&str]) -> Self {
        for line in lines {
            self = self.field("expect", line);
        }
        self
    }
}
