//! The help. The text of an option that has a module is there, as "  --option VALUE\n      text indented by six\n", within 80
//! columns.

use crate::failure::REFUSED;
use crate::{colours, demo_files, mask, matrix_file, order, precision};
use redstartgilt::Error;

/// The help, with the refusals by number below the exit status.
pub fn text() -> String {
    let mut text = OPTIONS.to_string();
    for (heading, parts) in SECTIONS {
        text += &format!("\n{heading}:\n{}", parts.concat());
    }
    text += "\n";
    text += FILES_AND_STATUS;
    for error in Error::ALL {
        let status = u32::from(REFUSED) + error.number();
        text += &format!("  {status}  {error}\n");
    }
    text
}

/// The headings, and the texts below each.
const SECTIONS: &[(&str, &[&str])] = &[
    ("A factor that is held against Q", &[precision::HELP]),
    ("Order of the cells, either way", &[order::HELP]),
    ("Entries in a file", &[matrix_file::HELP]),
    ("Land, titles, units and colours of maps", &[mask::HELP, colours::HELP]),
    ("The files of the demo", &[demo_files::HELP]),
    ("Files of these options", &[FILES]),
];

const FILES: &str = "  -
      in the place of a file that --precision, --cell-to-place, --place-to-cell
      or --mask reads is standard input, of one file; in the place of that which
      --matrix writes it is standard output, and nothing else is printed there.
      A file of that name is ./-. Of these options none writes over a file that
      is read or written, and no file that they read or write is written over,
      whatever names and links lead to it: before anything is computed the
      command ends with the status 2
";

const OPTIONS: &str = "\
redstartgilt: variances from a sparse Cholesky factor, by a proved selected inverse

Usage:
  redstartgilt [OPTIONS] FACTOR
  redstartgilt [OPTIONS] --precision Q [FACTOR]
  redstartgilt --pivots FILE [--requests FILE] [--permutation FILE] [--limit N] [--entries] [--csv] [--grid WxH ..] FACTOR
  redstartgilt --whole [--requests FILE] [--permutation FILE] [--limit N] [--entries] [--csv] [--grid WxH ..] FACTOR
  redstartgilt --whole --ranges FILE [--permutation FILE] [--limit N] [--csv] FACTOR
  redstartgilt --whole --track FILE --width K [--permutation FILE] [--limit N] [--csv] [--grid WxH ..] FACTOR
  redstartgilt --operator FILE [--with FILE [--pairs FILE]] [--permutation FILE] [--csv] FACTOR
  redstartgilt --demo [--requests FILE] [--write-requests FILE] [--why R,C] [--csv] [--svg FILE] [--html FILE]

FACTOR is a Matrix Market file of a lower factor L: the header
  %%MatrixMarket matrix coordinate real general
(or integer for real, or symmetric for general, where only the lower triangle is stored), comment lines that begin
with %, a line with rows, columns and entries, then a line with row, column and value for each entry, in any order.
Indices count from 1 in all files and in all output. The command prints the variance of every cell: the diagonal of
the inverse of L times its transpose. In a general file, entries above the diagonal and zeros are dropped. Of the others
none may be NaN or infinite, or too large for a 64-bit float: it is refused with 18, and the message has its line.

Options:
  --requests FILE     the pairs whose entries are wanted; without it all diagonals. Two indices a line, in either order;
                      lines that are empty or begin with % or # are passed over, here and in every other list. Or
                      a Matrix Market file, see below
  --write-requests FILE
                      write the pairs whose entries are wanted, in the order of the cells, as a Matrix Market file:
                      each pair once, by column then row, without comments, so that lists of the same pairs give equal
                      files. A list without pairs is refused with 24. The file is written before any entry is computed
  --permutation FILE  the order of the factor: line i has the place of cell i in the factor. Requests and output are
                      then in the order of the cells, not of the factor
  --limit N           give no entries if the requests and what the recurrence needs for them are more than N pairs;
                      without it 10 times the stored entries. N is up to 18446744073709551615, and told as given
  --pivots FILE       FACTOR is L of L times D times its transpose, with ones on its diagonal, stored or not, and FILE has
                      the diagonal D: line j has the pivot of column j of the factor, one number a line. Or it is a
                      Matrix Market file with the header %%MatrixMarket matrix array real general and one column. Without
                      this option FACTOR is L of L times its transpose, and its diagonal is stored. A list of another
                      length is refused with 4, a pivot at most 0 with 6, one that is not finite with 18, a diagonal
                      other than 1 with 23; the message has the line, or both lengths. Diagonals that are not stored do
                      not count in the limit
  --entries           print row, column and value of every entry that was computed, by column then row, and not the
                      variances
  --whole             compute in whole numbers, exactly: FACTOR is an integer file with 1 on its diagonal. The answer
                      says that it is exact: in text by a line, with --csv by names that begin with exact_, as in
                      exact_variance, on maps by the title. Another diagonal is refused with 19, a number beyond 2^53 in
                      size with 20. The message of 20 has the line of an entry of the file that is beyond it; or else,
                      where no more than 1,048,576 pairs are to be computed, the column of the factor in which the
                      recurrence, which goes from the last column to the first, comes upon such a number
  --exact S           print the entries only where a proved theorem says that they are the exact ones. For one s from 0 to
                      53 every kept entry of FACTOR must be a whole multiple of 2^-s, and every product, sum, quotient and
                      entry of the recurrence, computed without rounding, one too with a multiplier of at most 2^53 in
                      size; diagonals may then be 2, 4 or 1/2. S is that number, or the word least for the least that will
                      do. The command checks these hypotheses and says yes, or no and which number fails and what it is,
                      with the exit status 4; then nothing is promised, though a value may be exact all the same. The
                      theorem is proved, this check is a program. Values have all their digits; --csv and maps say that
                      they are exact as with --whole. Not with --whole, whose answers are exact, nor with --pivots,
                      --operator, --why and --demo
  --ranges FILE       with --whole: print bounds on the variance of weighted sums of cells whose weights are known within
                      ranges, and not the variances of the cells. Four whole numbers a line, in any order of the lines:
                      row, cell, and the low and the high end of the weight of that cell in that row's sum. The pairs of
                      each row's cells are requested. Every choice of weights within the ranges has its variance from
                      the low to the high bound; the bounds need not be the variance of one choice of all weights. Equal
                      ends give the variance itself. A cell twice in a row is refused with 9, more than 64 cells in a
                      row, an end beyond 1,024 in size or a low end above its high end with 21, an entry beyond 2^30 in
                      size with 20; the message has the line or the entry
  --track FILE        with --whole and --width: print the variance of each run of K consecutive cells along a track, such
                      as a fairway, and which is the largest, and not the variances of the cells. One cell a line, in the
                      order of the track; a cell may be on it more than once, and counts each time. The pairs of cells
                      of each run are requested. A cell that the factor has not is refused with 8, an entry beyond 2^40
                      in size with 20; the message has the line or the entry. With --svg or --html the map shows the
                      track and the largest run, and at each cell the variance of the run that begins there
  --width K           the cells of a run: from 1 to 1,024, and no more than the track has. Another is refused with 22
  --why R,C           print why the pair of the cells R and C is computed, and not the variances: a chain of pairs from
                      one that was requested to this one, each needed for the one before and none shorter, with the
                      entry of the factor that leads to each; or that the pair is not in the set. A chain has no limit,
                      so it is told also where the set passes one. With --svg or --html the map shows it: the cells
                      of the chain have the numbers of the pairs that they are in
  --operator FILE     print the variance of weighted sums of cells, and not of the cells: a Matrix Market file like
                      that of a factor, general, with a row for each sum and a column for each cell; an entry is the
                      weight of its column's cell in its row's sum
  --with FILE         a second operator: print the covariances of the rows of the first with those of the second, in
                      place of variances; a file that is given for both has each row's variance among them
  --pairs FILE        the row pairs whose covariances are wanted; without it all. A row of --operator and a row of
                      --with a line
  --csv               print comma-separated values with a line of names, and no summary
  --svg FILE          write the variances as a picture; needs --grid, --mask or --demo
  --html FILE         write the variances as a page for a browser, which needs no other file and no network: the map
                      with variance, deviation and coverage of the cell under the pointer or moved to by the arrow
                      keys, the legend, the diagnosis and all cells as a table; needs --grid, --mask or --demo
  --grid WxH          the cells are a grid of W columns and H rows, numbered row by row from the top left
  --demo              take no factor: a small harbour, made and factorised by the command. --demo --csv has the numbers
                      of its cells, for --requests
  --help, --version
";

const FILES_AND_STATUS: &str = "\
A requests file whose first line begins with %%MatrixMarket, in small letters or capitals, is read as a Matrix Market
file, every other one as a list of pairs. That line must be exactly
  %%MatrixMarket matrix coordinate pattern symmetric
Another such header is refused with 15, and not taken for a comment. Then come comment lines that begin with %, a line
with rows, columns and entries, both sizes that of the factor, and a line with row and column for each entry, on or
below the diagonal. A file without entries means all diagonals; a list without pairs means none. Lines end in LF, not in
CR LF. The message of a refusal has the file, the line and the reason.

With --requests not every cell need be computed. One that is not has no variance: it is printed as \"not computed\", with
--csv as an empty variance with no in the column covered (yes for every other cell), and on maps it is hatched. A
variance of 0.0 is always a computed one. Values are printed with as many digits as are needed to read them back bit for
bit.

Exit status:
  0   done
  1   a file cannot be read or written, or is malformed: the message has its name and line. A malformed Matrix Market
      file of requests is 25 to 27, one of another dimension 14
  2   bad usage
  3   ClosureTooLarge: the requests, or the rows of operators, need more pairs than the limit; for the variances of all
      cells without --limit, --entries, --matrix and --whole it is 18
  4   with --exact: a number does not meet the theorem's hypotheses, and nothing is promised
  5   with --precision: the factor is not that of Q
  10 + N  the library refuses with number N:
";
