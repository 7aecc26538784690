//! Entries as a Matrix Market file.

use crate::failure::Failure;
use crate::options::Options;
use crate::report::Value;
use crate::{files, Found};

pub const HELP: &str = "  --matrix FILE
      write the entries that were computed as a Matrix Market file, also beside
      --requests: the header
        %%MatrixMarket matrix coordinate real symmetric
      (with --whole integer for real), then the lower triangle in the order of
      the cells, by column then row, with values that read back bit for bit. Not
      with --operator, --ranges, --track, --why and --demo
  --only-requested
      with --entries or --matrix: print or write the requested pairs alone, and
      not the others that the recurrence needs for them
";

/// Writes the entries, where that is asked for.
pub fn write<V: Value>(options: &Options, found: &Found<V>) -> Result<(), Failure> {
    match &options.matrix {
        Some(file) => files::write_apart(file, text(found.variances.len(), &found.entries)),
        None => Ok(()),
    }
}

/// The file of entries (row, column, value) on or below the diagonal, by column then row.
fn text<V: Value>(n: usize, entries: &[(usize, usize, V)]) -> String {
    let mut text = format!(
        "%%MatrixMarket matrix coordinate {} symmetric\n{n} {n} {}\n",
        V::FIELD,
        entries.len()
    );
    for (row, column, value) in entries {
        text += &format!("{} {} {value:?}\n", row + 1, column + 1);
    }
    text
}
