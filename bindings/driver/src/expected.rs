//! What a call must reply and leave, and how what it did differs.

use crate::call::Call;
use crate::list::{Item, List};
use crate::reply::Reply;
use crate::subjects::Part;

#[derive(Clone)]
pub struct Expected {
    pub reply: Reply,
    /// The call with every list as it must be afterwards.
    pub after: Call,
    /// So many of the first result values and outputs are computed: there any NaN stands for any other.
    pub values_filled: usize,
    pub output_filled: usize,
}

impl Expected {
    /// A reply with all lists as they were.
    pub fn untouched(reply: Reply, call: Call) -> Self {
        Expected { reply, after: call, values_filled: 0, output_filled: 0 }
    }

    /// The differences of a reply and of the lists after a call.
    pub fn differences(&self, reply: &Reply, call: &Call) -> Vec<String> {
        let mut found = Vec::new();
        if !self.reply.same(reply) {
            found.push(format!("reply {reply:?} in place of {:?}", self.reply));
        }
        for ((subject, name, part), (_, _, expected)) in call.parts().into_iter().zip(self.after.parts()) {
            let filled = match (subject, name) {
                ("result", "values") => self.values_filled,
                ("output", "values") => self.output_filled,
                _ => 0,
            };
            let name = format!("{subject} {name}");
            match (part, expected) {
                (Part::Count(_), Part::Count(_)) | (Part::Float(_), Part::Float(_)) => {}
                (Part::Bytes(list), Part::Bytes(expected)) => compare(&name, list, expected, filled, &mut found),
                (Part::Words(list), Part::Words(expected)) => compare(&name, list, expected, filled, &mut found),
                (Part::Wholes(list), Part::Wholes(expected)) => compare(&name, list, expected, filled, &mut found),
                (Part::Floats(list), Part::Floats(expected)) => compare(&name, list, expected, filled, &mut found),
                _ => unreachable!("the parts of a call are of the same types in every call"),
            }
        }
        found
    }
}

/// The differences of a list, items by their bits; below `filled` all NaNs are equal.
fn compare<T: Item>(name: &str, list: &List<T>, expected: &List<T>, filled: usize, found: &mut Vec<String>) {
    if let Some(at) = list.difference(expected, filled) {
        let shown = |item: Option<&T>| item.map(|item| item.shown());
        found.push(format!("{name}[{at}] is {:?} in place of {:?}", shown(list.get(at)), shown(expected.get(at))));
    }
    if !list.guards_hold() {
        found.push(format!("written outside {name}"));
    }
}
