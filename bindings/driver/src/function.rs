//! The functions of the C interface.

#[derive(Clone, Copy, Debug, PartialEq, Eq, PartialOrd, Ord, Default)]
pub enum Function {
    EntriesWithLimit,
    Entries,
    LdlEntriesWithLimit,
    LdlEntries,
    CheckFactor,
    WholeEntriesWithLimit,
    WholeEntries,
    CheckWholeFactor,
    #[default]
    Get,
    GetCounted,
    CheckResult,
    GetWellFormed,
    GetWhole,
    VarianceBounds,
    TrackVariances,
    Diag,
    OriginalDiagWithLimit,
    OriginalDiag,
    OperatorVariancesWithLimit,
    OperatorVariances,
    CovariancesWithLimit,
    Covariances,
    DependencyChain,
    FactorPattern,
    OperatorPattern,
    Validate,
    Inverse,
    Reorder,
    ReorderMarked,
    FloorZero,
    FloorMean,
    Least,
    ReadRequests,
    WriteRequests,
}

pub const FUNCTIONS: [Function; 34] = [
    Function::EntriesWithLimit,
    Function::Entries,
    Function::LdlEntriesWithLimit,
    Function::LdlEntries,
    Function::CheckFactor,
    Function::WholeEntriesWithLimit,
    Function::WholeEntries,
    Function::CheckWholeFactor,
    Function::Get,
    Function::GetCounted,
    Function::CheckResult,
    Function::GetWellFormed,
    Function::GetWhole,
    Function::VarianceBounds,
    Function::TrackVariances,
    Function::Diag,
    Function::OriginalDiagWithLimit,
    Function::OriginalDiag,
    Function::OperatorVariancesWithLimit,
    Function::OperatorVariances,
    Function::CovariancesWithLimit,
    Function::Covariances,
    Function::DependencyChain,
    Function::FactorPattern,
    Function::OperatorPattern,
    Function::Validate,
    Function::Inverse,
    Function::Reorder,
    Function::ReorderMarked,
    Function::FloorZero,
    Function::FloorMean,
    Function::Least,
    Function::ReadRequests,
    Function::WriteRequests,
];

/// The functions that look up a pair in a result of floats.
pub const LOOKUPS: [Function; 3] = [Function::Get, Function::GetCounted, Function::GetWellFormed];

impl Function {
    /// The name in the C interface, without `redstartgilt_`.
    pub fn name(self) -> &'static str {
        match self {
            Function::EntriesWithLimit => "selected_inverse_entries_with_limit",
            Function::Entries => "selected_inverse_entries",
            Function::LdlEntriesWithLimit => "selected_inverse_entries_ldl_with_limit",
            Function::LdlEntries => "selected_inverse_entries_ldl",
            Function::CheckFactor => "check_factor",
            Function::WholeEntriesWithLimit => "selected_inverse_entries_whole_with_limit",
            Function::WholeEntries => "selected_inverse_entries_whole",
            Function::CheckWholeFactor => "check_whole_factor",
            Function::Get => "get",
            Function::GetCounted => "get_counted",
            Function::CheckResult => "check_result",
            Function::GetWellFormed => "get_well_formed",
            Function::GetWhole => "get_whole",
            Function::VarianceBounds => "variance_bounds_whole",
            Function::TrackVariances => "track_variances_whole",
            Function::Diag => "diag",
            Function::OriginalDiagWithLimit => "selected_inverse_diag_with_limit",
            Function::OriginalDiag => "selected_inverse_diag_with_diagnostics",
            Function::OperatorVariancesWithLimit => "selected_inverse_transformed_diag_with_limit",
            Function::OperatorVariances => "selected_inverse_transformed_diag",
            Function::CovariancesWithLimit => "selected_inverse_transformed_covariances_with_limit",
            Function::Covariances => "selected_inverse_transformed_covariances",
            Function::DependencyChain => "dependency_chain",
            Function::FactorPattern => "from_cholesky_factor",
            Function::OperatorPattern => "from_transformed_operator",
            Function::Validate => "validate",
            Function::Inverse => "from_orig_to_perm",
            Function::Reorder => "permute_factor_to_original",
            Function::ReorderMarked => "permute_factor_to_original_marked",
            Function::FloorZero => "stabilize_variances_zero",
            Function::FloorMean => "stabilize_variances_positive_mean",
            Function::Least => "count_and_least",
            Function::ReadRequests => "read_requests",
            Function::WriteRequests => "write_requests",
        }
    }

    /// Of a call with an output: the one with the default limit.
    pub fn by_default(self) -> Self {
        match self {
            Function::OriginalDiagWithLimit => Function::OriginalDiag,
            Function::OperatorVariancesWithLimit => Function::OperatorVariances,
            Function::CovariancesWithLimit => Function::Covariances,
            other => other,
        }
    }

    /// Of a call with an output and the default limit: the one with a limit.
    pub fn limited(self) -> Option<Self> {
        match self {
            Function::OriginalDiag => Some(Function::OriginalDiagWithLimit),
            Function::OperatorVariances => Some(Function::OperatorVariancesWithLimit),
            Function::Covariances => Some(Function::CovariancesWithLimit),
            _ => None,
        }
    }

    /// Whether it is given its limit.
    pub fn takes_limit(self) -> bool {
        let entries = [Function::EntriesWithLimit, Function::LdlEntriesWithLimit, Function::WholeEntriesWithLimit];
        entries.contains(&self) || self.by_default() != self
    }

    /// Whether it selects entries of a factor of whole numbers.
    pub fn selects_wholes(self) -> bool {
        matches!(self, Function::WholeEntriesWithLimit | Function::WholeEntries)
    }

    /// Whether it selects entries of a unit lower factor with pivots.
    pub fn selects_ldl(self) -> bool {
        matches!(self, Function::LdlEntriesWithLimit | Function::LdlEntries)
    }

    /// Whether it selects entries of a factor of floats, of either family: it is lent result lists of these.
    pub fn selects_floats(self) -> bool {
        let ours = matches!(
            self.by_default(),
            Function::EntriesWithLimit
                | Function::Entries
                | Function::OriginalDiag
                | Function::OperatorVariances
                | Function::Covariances
        );
        ours || self.selects_ldl()
    }

    /// Whether it selects entries: its reply has a status, and it is lent result lists and scratch.
    pub fn selects(self) -> bool {
        self.selects_floats() || self.selects_wholes()
    }

    /// Whether it is given a factor of floats.
    pub fn takes_factor(self) -> bool {
        let others = [Function::CheckFactor, Function::DependencyChain, Function::FactorPattern];
        self.selects_floats() || others.contains(&self)
    }

    /// Whether it is given a factor of whole numbers.
    pub fn takes_whole_factor(self) -> bool {
        self.selects_wholes() || self == Function::CheckWholeFactor
    }

    /// Whether it reads a result.
    pub fn reads_result(self) -> bool {
        let others = [
            Function::Diag,
            Function::CheckResult,
            Function::GetWhole,
            Function::VarianceBounds,
            Function::TrackVariances,
        ];
        others.contains(&self) || LOOKUPS.contains(&self)
    }
}
