//! Refusals: one variant for each number.

use crate::sys;
use std::fmt;

/// Why a call was refused.
///
/// The library checks in a fixed order, and the first check that fails decides. [`Error::number`] is the refusal's
/// number in every language. A refused call gives no result.
///
/// ```
/// use redstartgilt::{CholeskyFactor, Error};
///
/// // Rows of a column must ascend.
/// let refused = CholeskyFactor::new(2, vec![0, 2, 3], vec![1, 0, 1], vec![2.0, 1.0, 1.0]);
/// assert_eq!(refused.unwrap_err(), Error::BrokenRows);
/// assert_eq!(Error::BrokenRows.number(), 3);
/// assert!(Error::BrokenRows.to_string().starts_with("refusal 3: broken rows"));
/// ```
#[derive(Debug, Clone, Copy, PartialEq, Eq, Hash)]
#[non_exhaustive]
pub enum Error {
    /// 1: a dimension above [`MAX_DIMENSION`](crate::MAX_DIMENSION) or a list above
    /// [`MAX_ENTRIES`](crate::MAX_ENTRIES).
    TooLarge,
    /// 2: starts that are not n + 1, do not begin with 0, fall, or do not end with the number of rows; or rows and
    /// values of unequal length.
    BrokenStarts,
    /// 3: a row index of n or more, or not above the one before it in its column.
    BrokenRows,
    /// 4: requests, a permutation, pivots, an operator or a vector of another dimension, or lists of requests or of row
    /// pairs that are of unequal length.
    DimensionMismatch,
    /// 5: an index of n or more, of a request or of the pair whose chain is asked for.
    RequestOutOfRange,
    /// 6: a column without a diagonal entry, or with one at most 0.0; an entry of 0.0 counts as none. Of a factor with
    /// pivots, a pivot at most 0.0, and no column without a diagonal entry.
    NonPositiveDefinite,
    /// 7: a list lent for results, requests, a chain, scratch or output that is too short.
    TooShort,
    /// 8: a pair that is not among the selected entries; or, of the diagonal in original order, a closed set above the
    /// default limit.
    NotCovered,
    /// 9: row starts of an operator that are not those of its rows, or a column of n or more; a row pair that names a row
    /// that its operator has not; or, of a row with ranges, a column of n or more or one listed twice.
    BrokenOperator,
    /// 10: a permutation's index that is not below its length.
    IndexTooLarge,
    /// 11: an index that a permutation has twice.
    DuplicateEntry,
    /// 12: two permutations that are not each other's inverses, or not of one length.
    NotInverse,
    /// 13: a variance that is not finite.
    NotFinite,
    /// 14: a floor's scale that is not finite, or below 0.
    BadScale,
    /// 15: a request file whose first line is not exactly [`REQUEST_FILE_HEADER`](crate::REQUEST_FILE_HEADER).
    OtherHeader,
    /// 16: a request file with a size or entry line that is missing or not of its form, with unequal sizes or one above
    /// [`MAX_DIMENSION`](crate::MAX_DIMENSION), or with an entry count that is above
    /// [`MAX_ENTRIES`](crate::MAX_ENTRIES) or not the number of its entry lines.
    MalformedFile,
    /// 17: a request file with an index of 0, one above its size, or a row less than its column.
    FileIndexOutside,
    /// 18: an entry of a factor, on or below its diagonal, that is NaN or infinite. It has row and column of the first
    /// one, by column then row; `None` where it is a pivot, or where the refusal comes from its number alone.
    ///
    /// ```
    /// use redstartgilt::{CholeskyFactor, Error};
    ///
    /// let refused = CholeskyFactor::from_triplets(2, &[(0, 0, 1.0), (1, 0, f64::NAN), (1, 1, 1.0)]).unwrap_err();
    /// assert_eq!(refused, Error::NotFiniteEntry(Some((1, 0))));
    /// assert_eq!(refused.to_string(), "refusal 18: entry (1, 0) of the factor is not finite");
    /// assert_eq!(Error::from_number(18), Some(Error::NotFiniteEntry(None)));
    /// ```
    NotFiniteEntry(Option<(usize, usize)>),
    /// 19: a diagonal entry other than 1 in a factor of whole numbers; an entry of 0 counts as none.
    DiagonalNotOne,
    /// 20: in whole numbers, an entry of the factor, or a product, running sum or entry of the recurrence, that is beyond
    /// 2^53 in size; an entry at cells of a row with ranges that is beyond 2^30, or of a track's run that is beyond 2^40.
    NumberTooLarge,
    /// 21: weights within ranges, with a low one above its high one, one beyond ±1,024, or more than 64 terms.
    BadWeights,
    /// 22: a width of 0, above 1,024, or above the length of the track.
    BadWidth,
    /// 23: a diagonal entry other than 1 in a factor with pivots; an entry of 0.0 counts as none.
    PivotDiagonalNotOne,
    /// 24: requests without a pair, of a dimension above 0, that are to be written as a file, where they would mean all
    /// diagonals.
    NoRequests,
}

impl Error {
    /// Every refusal, by number; 18 without an entry.
    pub const ALL: [Error; 24] = [
        Error::TooLarge,
        Error::BrokenStarts,
        Error::BrokenRows,
        Error::DimensionMismatch,
        Error::RequestOutOfRange,
        Error::NonPositiveDefinite,
        Error::TooShort,
        Error::NotCovered,
        Error::BrokenOperator,
        Error::IndexTooLarge,
        Error::DuplicateEntry,
        Error::NotInverse,
        Error::NotFinite,
        Error::BadScale,
        Error::OtherHeader,
        Error::MalformedFile,
        Error::FileIndexOutside,
        Error::NotFiniteEntry(None),
        Error::DiagonalNotOne,
        Error::NumberTooLarge,
        Error::BadWeights,
        Error::BadWidth,
        Error::PivotDiagonalNotOne,
        Error::NoRequests,
    ];

    /// The refusal's number.
    pub const fn number(self) -> u32 {
        match self {
            Error::TooLarge => sys::REDSTARTGILT_TOO_LARGE,
            Error::BrokenStarts => sys::REDSTARTGILT_BROKEN_STARTS,
            Error::BrokenRows => sys::REDSTARTGILT_BROKEN_ROWS,
            Error::DimensionMismatch => sys::REDSTARTGILT_DIMENSION_MISMATCH,
            Error::RequestOutOfRange => sys::REDSTARTGILT_REQUEST_OUT_OF_RANGE,
            Error::NonPositiveDefinite => sys::REDSTARTGILT_NON_POSITIVE_DEFINITE,
            Error::TooShort => sys::REDSTARTGILT_TOO_SHORT,
            Error::NotCovered => sys::REDSTARTGILT_NOT_COVERED,
            Error::BrokenOperator => sys::REDSTARTGILT_BROKEN_OPERATOR,
            Error::IndexTooLarge => sys::REDSTARTGILT_INDEX_TOO_LARGE,
            Error::DuplicateEntry => sys::REDSTARTGILT_DUPLICATE_ENTRY,
            Error::NotInverse => sys::REDSTARTGILT_NOT_INVERSE,
            Error::NotFinite => sys::REDSTARTGILT_NOT_FINITE,
            Error::BadScale => sys::REDSTARTGILT_BAD_SCALE,
            Error::OtherHeader => sys::REDSTARTGILT_OTHER_HEADER,
            Error::MalformedFile => sys::REDSTARTGILT_MALFORMED_FILE,
            Error::FileIndexOutside => sys::REDSTARTGILT_FILE_INDEX_OUTSIDE,
            Error::NotFiniteEntry(_) => sys::REDSTARTGILT_NOT_FINITE_ENTRY,
            Error::DiagonalNotOne => sys::REDSTARTGILT_DIAGONAL_NOT_ONE,
            Error::NumberTooLarge => sys::REDSTARTGILT_NUMBER_TOO_LARGE,
            Error::BadWeights => sys::REDSTARTGILT_BAD_WEIGHTS,
            Error::BadWidth => sys::REDSTARTGILT_BAD_WIDTH,
            Error::PivotDiagonalNotOne => sys::REDSTARTGILT_PIVOT_DIAGONAL_NOT_ONE,
            Error::NoRequests => sys::REDSTARTGILT_NO_REQUESTS,
        }
    }

    /// The refusal of a number; `None` for 0, which is no refusal, and for a number that is not given.
    pub fn from_number(number: u32) -> Option<Error> {
        Error::ALL.into_iter().find(|error| error.number() == number)
    }

    /// What is wrong, in words. Which entry is not finite is told by [`Display`](fmt::Display) alone.
    pub const fn reason(self) -> &'static str {
        match self {
            Error::TooLarge => {
                "too large: a dimension, a permutation or a number of operator rows above 4,096, or more than \
                 1,048,576 stored entries, requests, operator terms, row pairs or variances"
            }
            Error::BrokenStarts => {
                "broken starts: there must be n + 1 of them, from 0, never falling, to the number of rows, and as many \
                 values as rows"
            }
            Error::BrokenRows => "broken rows: the row indices of each column must be below n and ascend",
            Error::DimensionMismatch => {
                "dimensions do not match: requests, permutation, pivots, operator or vector are of another dimension than \
                 the factor, or two lists that go together differ in length"
            }
            Error::RequestOutOfRange => {
                "an index of a request, or of the pair whose chain is asked for, is outside: it must be below the \
                 dimension"
            }
            Error::NonPositiveDefinite => {
                "not positive definite: a column of the factor has no diagonal entry, or one that is at most 0, or a pivot \
                 is at most 0"
            }
            Error::TooShort => "a list lent for results, requests, a chain, scratch or output is too short",
            Error::NotCovered => {
                "not covered: the pair is not among the selected entries, or all diagonals need more entries than the \
                 limit of 10 times the stored entries"
            }
            Error::BrokenOperator => {
                "broken operator: its row starts must go from 0, never falling, to the number of columns, with as many \
                 weights, its columns must be below the dimension, row pairs must name its rows, and a row with ranges \
                 must have each column once"
            }
            Error::IndexTooLarge => "an index of the permutation is not below its length",
            Error::DuplicateEntry => "the permutation has an index twice",
            Error::NotInverse => "the two permutations are not each other's inverses",
            Error::NotFinite => "a variance is not finite",
            Error::BadScale => "the scale of the floor is not finite, or is below 0",
            Error::OtherHeader => {
                "another header: the first line of a request file must be exactly %%MatrixMarket matrix coordinate \
                 pattern symmetric"
            }
            Error::MalformedFile => {
                "malformed request file: after comments it must have a line with two equal sizes of at most 4,096 and \
                 the number of entries, at most 1,048,576, then so many lines of two numbers"
            }
            Error::FileIndexOutside => {
                "an index of the request file is outside: indices go from 1 to the size, and a row must be at least its \
                 column"
            }
            Error::NotFiniteEntry(_) => "an entry of the factor, on or below its diagonal, or a pivot is not finite",
            Error::DiagonalNotOne => "a diagonal entry of a factor of whole numbers is not 1",
            Error::NumberTooLarge => {
                "a number is too large in size to be exact: beyond 2^53 an entry of a factor of whole numbers, or a product, \
                 a running sum or an entry of the recurrence; beyond 2^30 an entry at cells of a row with ranges; beyond 2^40 \
                 one at cells of a track's run"
            }
            Error::BadWeights => {
                "bad weights: a low one is above its high one, one is beyond 1,024 in size, or there are more than 64"
            }
            Error::BadWidth => "bad width: it must be from 1 to 1,024, and no more than the length of the track",
            Error::PivotDiagonalNotOne => "a diagonal entry of a factor with pivots is not 1",
            Error::NoRequests => {
                "no requests: a file without entries would mean all diagonals, so an empty list is not written as one"
            }
        }
    }

    /// `Ok` for 0, the refusal for another number.
    pub(crate) fn check(number: u32) -> Result<(), Error> {
        if number == sys::REDSTARTGILT_ACCEPTED {
            return Ok(());
        }
        match Error::from_number(number) {
            Some(error) => Err(error),
            None => panic!("the linked library refuses with {number}, which this crate does not know"),
        }
    }
}

impl fmt::Display for Error {
    fn fmt(&self, formatter: &mut fmt::Formatter<'_>) -> fmt::Result {
        write!(formatter, "refusal {}: ", self.number())?;
        match self {
            Error::NotFiniteEntry(Some((row, column))) => {
                write!(formatter, "entry ({row}, {column}) of the factor is not finite")
            }
            _ => formatter.write_str(self.reason()),
        }
    }
}

impl std::error::Error for Error {}
