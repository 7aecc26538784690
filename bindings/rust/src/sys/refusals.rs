//! Refusals by number.

/// No refusal.
pub const REDSTARTGILT_ACCEPTED: u32 = 0;
/// A list or dimension above its bound.
pub const REDSTARTGILT_TOO_LARGE: u32 = 1;
/// Starts of a factor or result that are not those of its columns.
pub const REDSTARTGILT_BROKEN_STARTS: u32 = 2;
/// A row index out of range, or not above the one before it in its column.
pub const REDSTARTGILT_BROKEN_ROWS: u32 = 3;
/// Dimensions or lengths that do not match.
pub const REDSTARTGILT_DIMENSION_MISMATCH: u32 = 4;
/// A request, or a pair whose chain is asked for, with an index of n or more.
pub const REDSTARTGILT_REQUEST_OUT_OF_RANGE: u32 = 5;
/// A column without a kept diagonal, or with one at most 0.0; a pivot at most 0.0.
pub const REDSTARTGILT_NON_POSITIVE_DEFINITE: u32 = 6;
/// A list lent for writing that is too short.
pub const REDSTARTGILT_TOO_SHORT: u32 = 7;
/// A pair that is not among the entries.
pub const REDSTARTGILT_NOT_COVERED: u32 = 8;
/// Row starts of an operator that are not those of its rows, or a column out of range; of a row with ranges, lists of
/// unequal length, or a column out of range or listed twice.
pub const REDSTARTGILT_BROKEN_OPERATOR: u32 = 9;
/// A permutation's index of its length or more.
pub const REDSTARTGILT_INDEX_TOO_LARGE: u32 = 10;
/// An index that a permutation has twice.
pub const REDSTARTGILT_DUPLICATE_ENTRY: u32 = 11;
/// Two permutations that are not each other's inverses.
pub const REDSTARTGILT_NOT_INVERSE: u32 = 12;
/// A variance that is not finite.
pub const REDSTARTGILT_NOT_FINITE: u32 = 13;
/// A floor's scale that is not finite or below 0.
pub const REDSTARTGILT_BAD_SCALE: u32 = 14;
/// A request file whose first line is not the header.
pub const REDSTARTGILT_OTHER_HEADER: u32 = 15;
/// A request file whose size line, entry lines or number of entries are not as they must be.
pub const REDSTARTGILT_MALFORMED_FILE: u32 = 16;
/// A request file with an index outside its size, or above the diagonal.
pub const REDSTARTGILT_FILE_INDEX_OUTSIDE: u32 = 17;
/// A kept entry of a factor, or a pivot, that is NaN or infinite.
pub const REDSTARTGILT_NOT_FINITE_ENTRY: u32 = 18;
/// A kept diagonal other than 1 of a factor of whole numbers.
pub const REDSTARTGILT_DIAGONAL_NOT_ONE: u32 = 19;
/// A number too large in size: beyond 2^53 in selected entries in whole numbers; an entry beyond 2^30 in the bounds on a
/// row's variance, beyond 2^40 in the variances along a track.
pub const REDSTARTGILT_NUMBER_TOO_LARGE: u32 = 20;
/// Weights within ranges: low above high, beyond 1,024 in size, or more than 64 terms.
pub const REDSTARTGILT_BAD_WEIGHTS: u32 = 21;
/// A width of 0, above 1,024 or above the track's length.
pub const REDSTARTGILT_BAD_WIDTH: u32 = 22;
/// A kept diagonal other than 1 of a factor with pivots.
pub const REDSTARTGILT_PIVOT_DIAGONAL_NOT_ONE: u32 = 23;
/// An empty request list of a dimension above 0 that is to be written as a file.
pub const REDSTARTGILT_NO_REQUESTS: u32 = 24;
