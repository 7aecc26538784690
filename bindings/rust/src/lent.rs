//! The calls on slices that the caller lends. Nothing is allocated or kept.
//!
//! A list may be longer than needed; places past those filled keep their contents. A refused call leaves every list as
//! it was, unless its documentation says otherwise. Lengths that suffice: [`result_places`], [`scratch_words`],
//! [`pair_total`], [`request_places`], [`request_file_bytes`], [`chain_words`], [`chain_places`] and [`track_runs`].
//!
//! ```
//! use redstartgilt::lent::{self, EntryLists, FactorLists, ResultLists};
//!
//! let factor = FactorLists { n: 2, starts: &[0, 2, 3], rows: &[0, 1, 1], values: &[1.0, 2.0, 1.0] };
//! let (mut starts, mut rows, mut values) = ([0; 3], [0; 3], [0.0; 3]);
//! let mut scratch = [0; 12];
//! assert_eq!(lent::scratch_words(2), 12);
//! let result = ResultLists { starts: &mut starts, rows: &mut rows, values: &mut values };
//! let diagnostics =
//!     lent::selected_inverse_entries_with_limit(factor, 2, &[0], &[0], 3, result, &mut scratch)?;
//! assert!(diagnostics.is_complete());
//! assert_eq!(values, [5.0, -2.0, 1.0]);
//!
//! let entries = EntryLists { starts: &starts, rows: &rows, values: &values };
//! assert_eq!(lent::get(entries, 0, 1)?, -2.0);
//! # Ok::<(), redstartgilt::Error>(())
//! ```

/// Calls a function of the C interface. Its arguments, in their order: `(n)` as it is; `[rows]` a list to read and
/// `{scratch}` one to write, each as pointer and length; `factor(f)`, `operator(a)`, `entries(e)` and `result(r)` all that
/// such a struct has.
macro_rules! lend {
    ($function:ident: $($arguments:tt)*) => { lend!(@ $function () $($arguments)*) };
    (@ $function:ident ($($done:expr),*)) => {
        // SAFETY: pointers and lengths are those of slices, so they are never null, aligned and valid, and those of
        // `&mut` slices overlap no other. The library stays inside the lists that it is lent.
        unsafe { crate::sys::$function($($done),*) }
    };
    (@ $function:ident ($($done:expr),*) ($value:expr) $($rest:tt)*) => {
        lend!(@ $function ($($done,)* $value) $($rest)*)
    };
    (@ $function:ident ($($done:expr),*) [$list:expr] $($rest:tt)*) => {
        lend!(@ $function ($($done,)* $list.as_ptr(), $list.len()) $($rest)*)
    };
    (@ $function:ident ($($done:expr),*) {$list:expr} $($rest:tt)*) => {
        lend!(@ $function ($($done,)* $list.as_mut_ptr(), $list.len()) $($rest)*)
    };
    (@ $function:ident ($($done:expr),*) factor($f:expr) $($rest:tt)*) => {
        lend!(@ $function ($($done),*) ($f.n) [$f.starts] [$f.rows] [$f.values] $($rest)*)
    };
    (@ $function:ident ($($done:expr),*) operator($a:expr) $($rest:tt)*) => {
        lend!(@ $function ($($done),*) ($a.ncols) [$a.row_starts] [$a.columns] [$a.weights] $($rest)*)
    };
    (@ $function:ident ($($done:expr),*) entries($e:expr) $($rest:tt)*) => {
        lend!(@ $function ($($done),*) [$e.starts] [$e.rows] [$e.values] $($rest)*)
    };
    (@ $function:ident ($($done:expr),*) result($r:expr) $($rest:tt)*) => {
        lend!(@ $function ($($done),*) {$r.starts} {$r.rows} {$r.values} $($rest)*)
    };
}

mod chains;
mod covariances;
mod factors;
mod files;
mod floors;
mod ldl;
mod lengths;
mod lists;
mod patterns;
mod permutations;
mod results;
mod selected_entries;
mod variances;
mod whole_variances;
mod wholes;

pub use chains::dependency_chain;
pub use covariances::{selected_inverse_transformed_covariances, selected_inverse_transformed_covariances_with_limit};
pub use factors::check_factor;
pub use files::{read_requests, write_requests, FileRequests};
pub use floors::{count_and_least, stabilize_variances, Floored};
pub use ldl::{check_ldl_factor, selected_inverse_entries_ldl, selected_inverse_entries_ldl_with_limit};
pub use lengths::{
    chain_places, chain_words, default_limit, mark_words, pair_total, request_file_bytes, request_places,
    result_places, scratch_words, track_runs,
};
pub use lists::{EntryLists, FactorLists, Number, OperatorLists, ResultLists};
pub use patterns::{from_cholesky_factor, from_transformed_operator};
pub use permutations::{from_orig_to_perm, permute_factor_to_original, permute_factor_to_original_marked, validate};
pub use results::{check_result, diag, get, get_counted, get_well_formed, CountedEntry};
pub use selected_entries::{selected_inverse_entries, selected_inverse_entries_with_limit};
pub use variances::{
    selected_inverse_diag_with_diagnostics, selected_inverse_diag_with_limit, selected_inverse_transformed_diag,
    selected_inverse_transformed_diag_with_limit,
};
pub use whole_variances::{track_variances_whole, variance_bounds_whole};
pub use wholes::{
    check_whole_factor, get_whole, selected_inverse_entries_whole, selected_inverse_entries_whole_with_limit,
};
