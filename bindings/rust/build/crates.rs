//! The crates that the library is made from, as crates.txt lists them.

use std::collections::BTreeMap;

/// The crates that crates.txt lists, each with what it depends on.
type Crates<'a> = BTreeMap<&'a str, Vec<&'a str>>;

/// A line is a crate's name, words on what it is built as, a colon and what it depends on.
fn listed_crates(text: &str) -> Crates<'_> {
    text.lines()
        .filter_map(|line| line.split('#').next()?.split_once(':'))
        .filter_map(|(head, needs)| Some((head.split_whitespace().next()?, needs.split_whitespace().collect())))
        .collect()
}

/// Puts a crate behind those that it needs. The toolchain's own libraries, which are not listed, are left out.
fn visit<'a>(name: &'a str, crates: &Crates<'a>, visited: &mut Vec<&'a str>, order: &mut Vec<&'a str>) {
    // A crate is visited before those that it needs, so that a cycle, which rt refuses, ends here.
    if visited.contains(&name) || !crates.contains_key(name) {
        return;
    }
    visited.push(name);
    for needed in &crates[name] {
        visit(needed, crates, visited, order);
    }
    order.push(name);
}

/// A crate with those that it needs, each with what it depends on, in the order in which rt proves them: each after those
/// that it needs, which come in the order in which they are listed.
pub fn proving_order<'a>(text: &'a str, library: &'a str) -> Vec<(&'a str, Vec<&'a str>)> {
    let crates = listed_crates(text);
    let (mut visited, mut order) = (Vec::new(), Vec::new());
    visit(library, &crates, &mut visited, &mut order);
    order.into_iter().map(|name| (name, crates[name].clone())).collect()
}
