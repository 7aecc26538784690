//! Sets of pairs of a symmetric matrix.

use crate::index::word;
use crate::lent;
use crate::{CholeskyFactor, Error, RequestFileError, RequestFileFault, RequestFileWriteError, SparseRowOperator};
use crate::{MAX_DIMENSION, MAX_ENTRIES};
use std::collections::BTreeSet;
use std::path::Path;

/// A set of pairs of a symmetric matrix, each with row ≥ column.
///
/// ```
/// use redstartgilt::SparseSymmetricPattern;
///
/// let mut pattern = SparseSymmetricPattern::new(2);
/// pattern.insert(0, 1)?;
/// pattern.insert(1, 0)?;
/// assert_eq!(pattern.pairs.len(), 1);
/// assert!(pattern.contains(0, 1));
/// # Ok::<(), redstartgilt::Error>(())
/// ```
#[derive(Debug, Clone, PartialEq, Eq)]
pub struct SparseSymmetricPattern {
    /// The dimension of the matrix.
    pub dimension: usize,
    /// The pairs (row, column), row ≥ column.
    pub pairs: BTreeSet<(usize, usize)>,
}

fn normalize_pair(row: usize, column: usize) -> (usize, usize) {
    (row.max(column), row.min(column))
}

impl SparseSymmetricPattern {
    /// No pairs.
    pub fn new(dimension: usize) -> Self {
        Self {
            dimension,
            pairs: BTreeSet::new(),
        }
    }

    /// All diagonals.
    pub fn diagonal(dimension: usize) -> Self {
        Self {
            dimension,
            pairs: (0..dimension).map(|index| (index, index)).collect(),
        }
    }

    /// Adds a pair, which may be in either order; an index outside gives [`Error::RequestOutOfRange`].
    pub fn insert(&mut self, row: usize, column: usize) -> Result<(), Error> {
        if row >= self.dimension || column >= self.dimension {
            return Err(Error::RequestOutOfRange);
        }
        self.pairs.insert(normalize_pair(row, column));
        Ok(())
    }

    /// Whether the pair, in either order, is in the set.
    pub fn contains(&self, row: usize, column: usize) -> bool {
        self.pairs.contains(&normalize_pair(row, column))
    }

    /// The pairs of the factor's kept entries: on or below the diagonal and not 0.0.
    ///
    /// ```
    /// use redstartgilt::{CholeskyFactor, SparseSymmetricPattern};
    ///
    /// let factor = CholeskyFactor::new(2, vec![0, 2, 3], vec![0, 1, 1], vec![1.0, 0.0, 1.0])?;
    /// let pattern = SparseSymmetricPattern::from_cholesky_factor(&factor);
    /// assert_eq!(pattern.pairs.into_iter().collect::<Vec<_>>(), [(0, 0), (1, 1)]);
    /// # Ok::<(), redstartgilt::Error>(())
    /// ```
    pub fn from_cholesky_factor(factor: &CholeskyFactor) -> Self {
        let n = factor.dimension();
        Self::listed(n, factor.nnz(), |scratch, rows, columns| {
            lent::from_cholesky_factor(factor.lists(), scratch, rows, columns)
        })
        .expect("a factor's lists were checked when it was made, and these lists are long enough")
    }

    /// All pairs of two columns, also equal ones, of each of the operator's rows.
    ///
    /// Refuses as [`SparseRowOperator::new`] does. The columns are taken as they are: where they are in original order,
    /// so are the pairs.
    ///
    /// ```
    /// use redstartgilt::{SparseRowOperator, SparseSymmetricPattern};
    ///
    /// let operator = SparseRowOperator::new(3, vec![vec![(0, 1.0), (2, -1.0)]])?;
    /// let pattern = SparseSymmetricPattern::from_transformed_operator(&operator)?;
    /// assert_eq!(pattern.pairs.into_iter().collect::<Vec<_>>(), [(0, 0), (2, 0), (2, 2)]);
    /// # Ok::<(), redstartgilt::Error>(())
    /// ```
    pub fn from_transformed_operator(operator: &SparseRowOperator) -> Result<Self, Error> {
        let compressed = operator.compressed();
        compressed.check()?;
        let pairs = operator
            .rows
            .iter()
            .fold(0, |sum: usize, row| sum.saturating_add(lent::pair_total(row.len())));
        Self::listed(operator.ncols, pairs, |scratch, rows, columns| {
            lent::from_transformed_operator(compressed.lists(), scratch, rows, columns)
        })
    }

    /// The pairs of a Matrix Market file that begins with [`REQUEST_FILE_HEADER`](crate::REQUEST_FILE_HEADER), counted
    /// from 0; the file counts from 1. A file without entries means all diagonals.
    ///
    /// Refuses with [`Error::OtherHeader`], [`Error::MalformedFile`] and [`Error::FileIndexOutside`];
    /// [`RequestFileFault::find`] then tells the line and the reason. The file's order and its repeats, which a set does
    /// not have, are kept by [`lent::read_requests`].
    ///
    /// ```
    /// use redstartgilt::{Error, SparseSymmetricPattern};
    ///
    /// let text = b"%%MatrixMarket matrix coordinate pattern symmetric\n% cells\n3 3 3\n3 1\n2 2\n3 1\n";
    /// let pattern = SparseSymmetricPattern::from_matrix_market(text)?;
    /// assert_eq!(pattern.dimension, 3);
    /// assert_eq!(pattern.pairs.into_iter().collect::<Vec<_>>(), [(1, 1), (2, 0)]);
    ///
    /// let refused = SparseSymmetricPattern::from_matrix_market(b"3 3 1\n3 1\n");
    /// assert_eq!(refused, Err(Error::OtherHeader));
    /// # Ok::<(), redstartgilt::Error>(())
    /// ```
    pub fn from_matrix_market(text: &[u8]) -> Result<Self, Error> {
        let places = lent::request_places(text);
        let (mut rows, mut columns) = (vec![0; places], vec![0; places]);
        let file = lent::read_requests(text, &mut rows, &mut columns)?;
        Ok(Self::of_lists(
            file.dimension,
            &rows[..file.requests],
            &columns[..file.requests],
        ))
    }

    /// The pairs of a Matrix Market file by its path, as [`from_matrix_market`](Self::from_matrix_market) reads its
    /// bytes. A refusal has the line and the reason with it.
    ///
    /// ```
    /// use redstartgilt::{RequestFileError, SparseSymmetricPattern};
    ///
    /// let path = std::env::temp_dir().join(format!("cells-{}.mtx", std::process::id()));
    /// std::fs::write(&path, "%%MatrixMarket matrix coordinate pattern symmetric\n3 3 1\n3 1\n")?;
    /// let pattern = SparseSymmetricPattern::read_matrix_market(&path).unwrap();
    /// assert!(pattern.contains(2, 0));
    ///
    /// std::fs::write(&path, "%%MatrixMarket matrix coordinate pattern symmetric\n3 3 1\n3 4\n")?;
    /// let refused = SparseSymmetricPattern::read_matrix_market(&path).unwrap_err();
    /// assert_eq!(refused.to_string(), "refusal 17: line 3: column 4 is beyond the dimension 3");
    /// # std::fs::remove_file(&path)?;
    /// # Ok::<(), std::io::Error>(())
    /// ```
    pub fn read_matrix_market(path: impl AsRef<Path>) -> Result<Self, RequestFileError> {
        let text = std::fs::read(path).map_err(RequestFileError::Unreadable)?;
        Self::from_matrix_market(&text)
            .map_err(|error| RequestFileError::Refused(RequestFileFault::of_refusal(&text, error)))
    }

    /// The set as a Matrix Market file, which the library writes: each pair once, by column then row, without comments.
    /// Equal sets of one dimension give equal bytes, and [`from_matrix_market`](Self::from_matrix_market) gives the set
    /// back.
    ///
    /// Refuses with [`Error::TooLarge`], with [`Error::RequestOutOfRange`] for a pair outside or above the diagonal, and
    /// with [`Error::NoRequests`] for no pairs of a dimension above 0: a file without entries means all diagonals.
    ///
    /// ```
    /// use redstartgilt::{Error, SparseSymmetricPattern};
    ///
    /// let mut pattern = SparseSymmetricPattern::new(3);
    /// assert_eq!(pattern.to_matrix_market(), Err(Error::NoRequests));
    /// pattern.insert(0, 2)?;
    /// pattern.insert(1, 1)?;
    /// let file = pattern.to_matrix_market()?;
    /// assert_eq!(file, b"%%MatrixMarket matrix coordinate pattern symmetric\n3 3 2\n3 1\n2 2\n");
    /// assert_eq!(SparseSymmetricPattern::from_matrix_market(&file)?, pattern);
    /// # Ok::<(), redstartgilt::Error>(())
    /// ```
    pub fn to_matrix_market(&self) -> Result<Vec<u8>, Error> {
        let (rows, columns) = self.request_lists();
        // Where 1 refuses, nothing is written.
        let small = self.dimension <= MAX_DIMENSION && rows.len() <= MAX_ENTRIES;
        let mut scratch = vec![0; if small { lent::mark_words(self.dimension) } else { 0 }];
        let mut output = vec![0; if small { lent::request_file_bytes(rows.len()) } else { 0 }];
        let bytes = lent::write_requests(self.dimension, &rows, &columns, &mut output, &mut scratch)?;
        output.truncate(bytes);
        Ok(output)
    }

    /// Writes the set to a file by its path, as [`to_matrix_market`](Self::to_matrix_market) has it. Nothing is written
    /// where it is refused.
    ///
    /// ```
    /// use redstartgilt::SparseSymmetricPattern;
    ///
    /// let path = std::env::temp_dir().join(format!("diagonals-{}.mtx", std::process::id()));
    /// SparseSymmetricPattern::diagonal(2).write_matrix_market(&path).unwrap();
    /// let text = std::fs::read_to_string(&path)?;
    /// assert_eq!(text, "%%MatrixMarket matrix coordinate pattern symmetric\n2 2 2\n1 1\n2 2\n");
    ///
    /// let refused = SparseSymmetricPattern::new(2).write_matrix_market(&path).unwrap_err();
    /// assert!(refused.to_string().starts_with("refusal 24: no requests"));
    /// # std::fs::remove_file(&path)?;
    /// # Ok::<(), std::io::Error>(())
    /// ```
    pub fn write_matrix_market(&self, path: impl AsRef<Path>) -> Result<(), RequestFileWriteError> {
        let file = self.to_matrix_market().map_err(RequestFileWriteError::Refused)?;
        std::fs::write(path, file).map_err(RequestFileWriteError::Unwritable)
    }

    /// The pairs that a call lists, at most `most` of them. `dimension` must be one that the library accepts, as the
    /// scratch grows with its square.
    fn listed(
        dimension: usize,
        most: usize,
        list: impl FnOnce(&mut [u32], &mut [u32], &mut [u32]) -> Result<usize, Error>,
    ) -> Result<Self, Error> {
        let total = lent::pair_total(dimension);
        let mut scratch = vec![0; lent::mark_words(dimension)];
        let mut rows = vec![0; most.min(total)];
        let mut columns = vec![0; most.min(total)];
        let pairs = list(&mut scratch, &mut rows, &mut columns)?;
        Ok(Self::of_lists(dimension, &rows[..pairs], &columns[..pairs]))
    }

    /// The pairs of two lists, each with row ≥ column.
    fn of_lists(dimension: usize, rows: &[u32], columns: &[u32]) -> Self {
        let pairs = rows.iter().zip(columns);
        Self {
            dimension,
            pairs: pairs.map(|(row, column)| (*row as usize, *column as usize)).collect(),
        }
    }

    /// The rows and the columns of the pairs.
    pub(crate) fn request_lists(&self) -> (Vec<u32>, Vec<u32>) {
        self.pairs
            .iter()
            .map(|(row, column)| (word(*row), word(*column)))
            .unzip()
    }
}
