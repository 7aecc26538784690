//! A call of the C interface: which function, all that it is given, and its reply.

use crate::function::Function;
use crate::list::{Item, List};
use crate::reply::Reply;
use crate::subjects::{
    EntryLists, FactorLists, OperatorLists, OutputLists, Pair, PairLists, Part, PermutationLists, RangeLists,
    RequestLists, ResultLists, RowPairLists, TrackLists, ValueLists,
};
use redstartgilt::sys;

/// A function reads and writes some of these; the others are empty.
#[derive(Clone, Default)]
pub struct Call {
    pub function: Function,
    pub factor: FactorLists,
    pub whole_factor: FactorLists<i64>,
    /// Those of a unit lower factor.
    pub pivots: List<f64>,
    pub requests: RequestLists,
    pub limit: usize,
    pub pair: Pair,
    /// The only operator, or A of two.
    pub operator: OperatorLists,
    /// B of two operators.
    pub other: OperatorLists,
    pub row_pairs: RowPairLists,
    pub entries: EntryLists,
    pub whole_entries: EntryLists<i64>,
    pub ranges: RangeLists,
    pub track: TrackLists,
    pub permutation: PermutationLists,
    pub values: ValueLists,
    /// A file's bytes that are read.
    pub text: List<u8>,
    pub result: ResultLists,
    pub whole_result: ResultLists<i64>,
    pub scratch: List<u32>,
    /// The whole numbers that the whole-number engine computes in.
    pub work: List<i64>,
    pub pairs: PairLists,
    pub output: OutputLists,
    /// The bytes that a file is written to.
    pub file: List<u8>,
}

/// Calls a function of the C interface with arguments in a row: `(n)` as it is, `[rows]` a list's pointer and length,
/// `{scratch}` the same of a list lent for writing; `factor(f)` and the like all that such a subject has.
macro_rules! c_call {
    ($function:ident: $($arguments:tt)*) => { Reply::from(c_call!(@ $function () $($arguments)*)) };
    (@ $function:ident ($($done:expr),*)) => {
        unsafe { sys::$function($($done),*) }
    };
    (@ $function:ident ($($done:expr),*) ($value:expr) $($rest:tt)*) => {
        c_call!(@ $function ($($done,)* $value) $($rest)*)
    };
    (@ $function:ident ($($done:expr),*) [$list:expr] $($rest:tt)*) => {
        c_call!(@ $function ($($done,)* $list.pointer(), $list.len()) $($rest)*)
    };
    (@ $function:ident ($($done:expr),*) {$list:expr} $($rest:tt)*) => {
        c_call!(@ $function ($($done,)* $list.pointer_mut(), $list.len()) $($rest)*)
    };
    (@ $function:ident ($($done:expr),*) factor($f:expr) $($rest:tt)*) => {
        c_call!(@ $function ($($done),*) ($f.n) [$f.starts] [$f.rows] [$f.values] $($rest)*)
    };
    (@ $function:ident ($($done:expr),*) requests($r:expr) $($rest:tt)*) => {
        c_call!(@ $function ($($done),*) ($r.dimension) [$r.rows] [$r.columns] $($rest)*)
    };
    (@ $function:ident ($($done:expr),*) operator($o:expr) $($rest:tt)*) => {
        c_call!(@ $function ($($done),*) ($o.ncols) [$o.row_starts] [$o.columns] [$o.weights] $($rest)*)
    };
    (@ $function:ident ($($done:expr),*) entries($e:expr) $($rest:tt)*) => {
        c_call!(@ $function ($($done),*) [$e.starts] [$e.rows] [$e.values] $($rest)*)
    };
    (@ $function:ident ($($done:expr),*) pair($p:expr) $($rest:tt)*) => {
        c_call!(@ $function ($($done),*) ($p.row) ($p.column) $($rest)*)
    };
    (@ $function:ident ($($done:expr),*) result($r:expr) $($rest:tt)*) => {
        c_call!(@ $function ($($done),*) {$r.starts} {$r.rows} {$r.values} $($rest)*)
    };
    (@ $function:ident ($($done:expr),*) pairs($p:expr) $($rest:tt)*) => {
        c_call!(@ $function ($($done),*) {$p.rows} {$p.columns} $($rest)*)
    };
}

impl Call {
    /// The dimension of the pairs that it asks for or lists: the factor's, of an operator's pattern its columns, of a file
    /// the requests'.
    pub fn dimension(&self) -> usize {
        match self.function {
            Function::OperatorPattern => self.operator.ncols,
            Function::WriteRequests => self.requests.dimension,
            function if function.takes_whole_factor() => self.whole_factor.n,
            _ => self.factor.n,
        }
    }

    /// How many entries its factor stores.
    pub fn stored(&self) -> usize {
        if self.function.takes_whole_factor() {
            self.whole_factor.rows.len()
        } else {
            self.factor.rows.len()
        }
    }

    /// Makes the call.
    #[rustfmt::skip]
    pub fn make(&mut self) -> Reply {
        let Call {
            function, factor, whole_factor, pivots, requests, limit, pair, operator, other, row_pairs, entries, whole_entries,
            ranges, track, permutation, values, text, result, whole_result, scratch, work, pairs, output, file,
        } = self;
        match function {
            Function::EntriesWithLimit => c_call!(redstartgilt_selected_inverse_entries_with_limit:
                factor(factor) requests(requests) (*limit) result(result) {scratch}),
            Function::Entries => c_call!(redstartgilt_selected_inverse_entries:
                factor(factor) requests(requests) result(result) {scratch}),
            Function::LdlEntriesWithLimit => c_call!(redstartgilt_selected_inverse_entries_ldl_with_limit:
                factor(factor) [pivots] requests(requests) (*limit) result(result) {scratch}),
            Function::LdlEntries => c_call!(redstartgilt_selected_inverse_entries_ldl:
                factor(factor) [pivots] requests(requests) result(result) {scratch}),
            Function::CheckFactor => c_call!(redstartgilt_check_factor: factor(factor)),
            Function::WholeEntriesWithLimit => c_call!(redstartgilt_selected_inverse_entries_whole_with_limit:
                factor(whole_factor) requests(requests) (*limit) result(whole_result) {scratch} {work}),
            Function::WholeEntries => c_call!(redstartgilt_selected_inverse_entries_whole:
                factor(whole_factor) requests(requests) result(whole_result) {scratch} {work}),
            Function::CheckWholeFactor => c_call!(redstartgilt_check_whole_factor: factor(whole_factor)),
            Function::Get => c_call!(redstartgilt_get: entries(entries) pair(pair)),
            Function::GetCounted => c_call!(redstartgilt_get_counted: entries(entries) pair(pair)),
            Function::CheckResult => c_call!(redstartgilt_check_result: entries(entries)),
            Function::GetWellFormed => c_call!(redstartgilt_get_well_formed: entries(entries) pair(pair)),
            Function::GetWhole => c_call!(redstartgilt_get_whole: entries(whole_entries) pair(pair)),
            Function::VarianceBounds => c_call!(redstartgilt_variance_bounds_whole:
                entries(whole_entries) [ranges.columns] [ranges.lows] [ranges.highs]),
            Function::TrackVariances => c_call!(redstartgilt_track_variances_whole:
                entries(whole_entries) [track.cells] (track.width) {output.wholes}),
            Function::Diag => c_call!(redstartgilt_diag: entries(entries) {output.values} {output.marks}),
            Function::OriginalDiagWithLimit => c_call!(redstartgilt_selected_inverse_diag_with_limit:
                factor(factor) [permutation.orig_to_perm] (*limit) result(result) {scratch} {output.values}),
            Function::OriginalDiag => c_call!(redstartgilt_selected_inverse_diag_with_diagnostics:
                factor(factor) [permutation.orig_to_perm] result(result) {scratch} {output.values}),
            Function::OperatorVariancesWithLimit => c_call!(redstartgilt_selected_inverse_transformed_diag_with_limit:
                factor(factor) operator(operator) (*limit) result(result) {scratch} {output.values}),
            Function::OperatorVariances => c_call!(redstartgilt_selected_inverse_transformed_diag:
                factor(factor) operator(operator) result(result) {scratch} {output.values}),
            Function::CovariancesWithLimit => c_call!(redstartgilt_selected_inverse_transformed_covariances_with_limit:
                factor(factor) operator(operator) operator(other) [row_pairs.a_rows] [row_pairs.b_rows] (*limit)
                result(result) {scratch} {output.values}),
            Function::Covariances => c_call!(redstartgilt_selected_inverse_transformed_covariances:
                factor(factor) operator(operator) operator(other) [row_pairs.a_rows] [row_pairs.b_rows]
                result(result) {scratch} {output.values}),
            Function::DependencyChain => c_call!(redstartgilt_dependency_chain:
                factor(factor) requests(requests) pair(pair) {scratch} pairs(pairs)),
            Function::FactorPattern => c_call!(redstartgilt_from_cholesky_factor: factor(factor) {scratch} pairs(pairs)),
            Function::OperatorPattern => c_call!(redstartgilt_from_transformed_operator:
                operator(operator) {scratch} pairs(pairs)),
            Function::Validate => c_call!(redstartgilt_validate: [permutation.orig_to_perm] [permutation.perm_to_orig]),
            Function::Inverse => c_call!(redstartgilt_from_orig_to_perm:
                [permutation.orig_to_perm] {permutation.perm_to_orig}),
            Function::Reorder => c_call!(redstartgilt_permute_factor_to_original:
                [permutation.orig_to_perm] [values.input] {output.values}),
            Function::ReorderMarked => c_call!(redstartgilt_permute_factor_to_original_marked:
                [permutation.orig_to_perm] [values.input] [values.marks] {output.values} {output.marks}),
            Function::FloorZero => c_call!(redstartgilt_stabilize_variances_zero: [values.input] {output.values}),
            Function::FloorMean => c_call!(redstartgilt_stabilize_variances_positive_mean:
                [values.input] (values.scale) {output.values}),
            Function::Least => c_call!(redstartgilt_count_and_least: [values.input]),
            Function::ReadRequests => c_call!(redstartgilt_read_requests: [text] pairs(pairs)),
            Function::WriteRequests => c_call!(redstartgilt_write_requests: requests(requests) {file} {scratch}),
        }
    }

    /// Every part, by its subject and its name there.
    pub fn parts(&self) -> Vec<(&'static str, &'static str, Part<'_>)> {
        let Call {
            function: _,
            factor,
            whole_factor,
            pivots,
            requests,
            limit,
            pair,
            operator,
            other,
            row_pairs,
            entries,
            whole_entries,
            ranges,
            track,
            permutation,
            values,
            text,
            result,
            whole_result,
            scratch,
            work,
            pairs,
            output,
            file,
        } = self;
        let subjects = [
            ("factor", factor.parts()),
            ("whole_factor", whole_factor.parts()),
            ("pivots", vec![("", Part::from(pivots))]),
            ("requests", requests.parts()),
            ("limit", vec![("", Part::from(limit))]),
            ("pair", pair.parts()),
            ("operator", operator.parts()),
            ("other", other.parts()),
            ("row_pairs", row_pairs.parts()),
            ("entries", entries.parts()),
            ("whole_entries", whole_entries.parts()),
            ("ranges", ranges.parts()),
            ("track", track.parts()),
            ("permutation", permutation.parts()),
            ("values", values.parts()),
            ("text", vec![("", Part::from(text))]),
            ("result", result.parts()),
            ("whole_result", whole_result.parts()),
            ("scratch", vec![("", Part::from(scratch))]),
            ("work", vec![("", Part::from(work))]),
            ("pairs", pairs.parts()),
            ("output", output.parts()),
            ("file", vec![("", Part::from(file))]),
        ];
        let named = |(subject, parts): (&'static str, Vec<(&'static str, _)>)| {
            parts.into_iter().map(move |(name, part)| (subject, name, part))
        };
        subjects.into_iter().flat_map(named).collect()
    }

    /// The call in words, each list with its first items.
    pub fn told(&self) -> String {
        let told = self.parts().into_iter().filter_map(|(subject, name, part)| {
            let told = match part {
                Part::Count(count) => count.to_string(),
                Part::Float(float) => float.shown(),
                Part::Bytes(list) if !list.is_empty() => {
                    format!("{}: {}", list.len(), list[..list.len().min(4000)].escape_ascii())
                }
                Part::Words(list) if !list.is_empty() => told_list(list),
                Part::Wholes(list) if !list.is_empty() => told_list(list),
                Part::Floats(list) if !list.is_empty() => told_list(list),
                _ => return None,
            };
            Some(format!("\n  {subject} {name} {told}"))
        });
        format!("{}:{}", self.function.name(), told.collect::<String>())
    }
}

fn told_list<T: Item>(list: &[T]) -> String {
    let shown: Vec<String> = list.iter().take(200).map(|&x| x.shown()).collect();
    format!("{}: {}{}", list.len(), shown.join(" "), if list.len() > 200 { " .." } else { "" })
}
