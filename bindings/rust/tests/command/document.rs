//! What an SVG or HTML document has.

/// Checks that tags nest and attributes are quoted, and gives the names of the elements in order.
pub fn elements(document: &str) -> Vec<String> {
    let mut rest = document
        .strip_prefix("<?xml version=\"1.0\" encoding=\"UTF-8\"?>")
        .expect("an XML declaration");
    let (mut open, mut names): (Vec<String>, Vec<String>) = (Vec::new(), Vec::new());
    while let Some(start) = rest.find('<') {
        let text = &rest[..start];
        assert!(!text.contains('>'), "{text}");
        assert!(open.last().is_some() || text.trim().is_empty(), "{text}");
        for entity in text.split('&').skip(1) {
            let name = entity.split_once(';').expect("an entity ends").0;
            assert!(["amp", "lt", "gt", "quot"].contains(&name), "{name}");
        }
        let end = start + rest[start..].find('>').expect("a tag ends");
        let tag = &rest[start + 1..end];
        rest = &rest[end + 1..];
        if let Some(name) = tag.strip_prefix('/') {
            assert_eq!(open.pop().as_deref(), Some(name));
            continue;
        }
        let (tag, closed) = match tag.strip_suffix('/') {
            Some(tag) => (tag, true),
            None => (tag, false),
        };
        let (name, mut attributes) = tag.split_once(' ').unwrap_or((tag, ""));
        assert!(!name.is_empty() && name.chars().all(char::is_alphanumeric), "{name}");
        let mut seen = Vec::new();
        while !attributes.is_empty() {
            let (name, value) = attributes.split_once("=\"").expect("an attribute is name=\"value\"");
            assert!(!name.is_empty() && !name.contains([' ', '"', '<']), "{name}");
            assert!(!seen.contains(&name), "{name} twice");
            seen.push(name);
            let (_, left) = value.split_once('"').expect("a value ends");
            assert!(left.is_empty() || left.starts_with(' '), "{left}");
            attributes = left.trim_start();
        }
        names.push(name.to_string());
        if !closed {
            open.push(name.to_string());
        }
        assert!(names.len() == 1 || closed || open.len() > 1, "one root");
    }
    assert!(open.is_empty() && rest.trim().is_empty());
    assert_eq!(names[0], "svg");
    names
}

pub fn cells(document: &str) -> Vec<&str> {
    document
        .lines()
        .filter(|line| line.contains("class=\"cell\""))
        .collect()
}

/// The attribute of a cell of the page.
pub fn attribute<'a>(cell: &'a str, name: &str) -> Option<&'a str> {
    let (_, rest) = cell.split_once(&format!(" {name}=\""))?;
    rest.split_once('"').map(|(value, _)| value)
}

/// The words on the marks of a chain's cells, in the order in which they come into it.
pub fn marks(document: &str) -> Vec<&str> {
    let (_, chain) = document.split_once("<g id=\"chain\"").expect("a chain");
    let (chain, _) = chain.split_once("</g>").expect("it ends");
    let marks = chain.lines().filter(|line| line.contains("class=\"mark\""));
    marks
        .map(|line| line.rsplit('>').nth(1).unwrap().strip_suffix("</text").unwrap())
        .collect()
}
