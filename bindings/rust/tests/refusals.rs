//! Every refusal, as an error of the safe functions or of the calls on lent lists.

use redstartgilt::lent::{self, EntryLists, FactorLists, OperatorLists, ResultLists};
use redstartgilt::{
    selected_inverse_diag, selected_inverse_diag_with_limit, selected_inverse_entries,
    selected_inverse_entries_with_limit, selected_inverse_transformed_covariances,
    selected_inverse_transformed_covariances_with_limit, selected_inverse_transformed_diag,
    selected_inverse_transformed_diag_with_limit, stabilize_variances, CholeskyFactor, Error, Permutation,
    SelectedInverseDiagnostics, SparseRowOperator, SparseSymmetricPattern, VarianceFloor, MAX_ENTRIES,
};

fn f2() -> CholeskyFactor {
    CholeskyFactor::new(2, vec![0, 2, 3], vec![0, 1, 1], vec![1.0, 2.0, 1.0]).unwrap()
}

#[test]
fn numbers_and_words() {
    for (place, error) in Error::ALL.into_iter().enumerate() {
        let number = place as u32 + 1;
        assert_eq!(error.number(), number);
        assert_eq!(Error::from_number(number), Some(error));
        assert_eq!(error.to_string(), format!("refusal {number}: {}", error.reason()));
    }
    assert_eq!(Error::from_number(0), None);
    assert_eq!(Error::from_number(25), None);
}

#[test]
fn too_large() {
    assert_eq!(CholeskyFactor::from_triplets(4_097, &[]), Err(Error::TooLarge));
    assert_eq!(
        CholeskyFactor::new(1, vec![0, 1], vec![0; MAX_ENTRIES + 1], vec![]),
        Err(Error::TooLarge)
    );
    let identity = (0..4_097).collect::<Vec<_>>();
    assert_eq!(Permutation::from_orig_to_perm(identity.clone()), Err(Error::TooLarge));
    assert_eq!(Permutation::identity(4_097).validate(), Err(Error::TooLarge));
    assert_eq!(SparseRowOperator::new(1, vec![vec![]; 4_097]), Err(Error::TooLarge));
    assert_eq!(SparseRowOperator::new(4_097, vec![]), Err(Error::TooLarge));
    assert_eq!(
        stabilize_variances(&vec![1.0; MAX_ENTRIES + 1], VarianceFloor::Zero),
        Err(Error::TooLarge)
    );
}

/// The largest dimension is accepted.
#[test]
fn not_too_large() {
    for n in [2_049, 4_095, 4_096] {
        assert!(CholeskyFactor::from_triplets(n, &[]).is_ok());
        assert_eq!(Permutation::identity(n).validate(), Ok(()));
        assert!(SparseRowOperator::new(1, vec![vec![]; n]).is_ok());
        assert!(SparseRowOperator::new(n, vec![]).is_ok());
    }
}

#[test]
fn broken_starts() {
    let broken = |starts: &[u32], rows: usize, values: usize| {
        CholeskyFactor::new(2, starts.to_vec(), (0..rows as u32).collect(), vec![1.0; values])
    };
    for (starts, rows, values) in [
        (&[0, 1][..], 1, 1),
        (&[0, 1, 2, 2], 2, 2),
        (&[1, 1, 2], 2, 2),
        (&[0, 2, 1], 1, 1),
        (&[0, 1, 1], 2, 2),
        (&[0, 1, 2], 2, 1),
        (&[], 0, 0),
    ] {
        assert_eq!(broken(starts, rows, values), Err(Error::BrokenStarts), "{starts:?}");
    }
}

#[test]
fn broken_rows() {
    for rows in [[1, 0, 1], [0, 0, 1], [0, 2, 1], [0, u32::MAX, 1]] {
        let factor = CholeskyFactor::new(2, vec![0, 2, 3], rows.to_vec(), vec![1.0; 3]);
        assert_eq!(factor, Err(Error::BrokenRows), "{rows:?}");
    }
    for triplets in [
        [(0, 0, 1.0), (0, 0, 1.0)],
        [(0, 0, 1.0), (2, 0, 1.0)],
        [(0, 0, 1.0), (0, 2, 1.0)],
        [(0, 0, 1.0), (usize::MAX, usize::MAX, 1.0)],
    ] {
        let factor = CholeskyFactor::from_triplets(2, &triplets);
        assert_eq!(factor, Err(Error::BrokenRows), "{triplets:?}");
    }
}

#[test]
fn dimension_mismatch() {
    for dimension in [0, 1, 3, usize::MAX] {
        let requested = SparseSymmetricPattern::new(dimension);
        assert_eq!(
            selected_inverse_entries(&f2(), &requested),
            Err(Error::DimensionMismatch)
        );
    }
    let permutation = Permutation::identity(3);
    assert_eq!(
        f2().with_permutation(permutation.clone()),
        Err(Error::DimensionMismatch)
    );
    assert_eq!(
        permutation.permute_factor_to_original(&[1.0]),
        Err(Error::DimensionMismatch)
    );
    assert_eq!(f2().permute_factor_to_original(&[1.0]), Err(Error::DimensionMismatch));
    assert_eq!(
        permutation.permute_factor_to_original_marked(&[Some(1.0)]),
        Err(Error::DimensionMismatch)
    );
    assert_eq!(
        f2().permute_factor_to_original_marked(&[None]),
        Err(Error::DimensionMismatch)
    );
    let operator = SparseRowOperator::identity(3);
    assert_eq!(
        selected_inverse_transformed_diag(&f2(), &operator),
        Err(Error::DimensionMismatch)
    );
    let permuted = f2().with_permutation(Permutation::identity(2)).unwrap();
    assert_eq!(
        selected_inverse_transformed_diag(&permuted, &operator),
        Err(Error::DimensionMismatch)
    );
    assert_eq!(
        operator.permute_columns_to_factor(&Permutation::identity(2)),
        Err(Error::DimensionMismatch)
    );
}

#[test]
fn request_out_of_range() {
    let mut requested = SparseSymmetricPattern::new(2);
    assert_eq!(requested.insert(2, 0), Err(Error::RequestOutOfRange));
    assert_eq!(requested.insert(0, usize::MAX), Err(Error::RequestOutOfRange));
    assert!(requested.pairs.is_empty());
    for pair in [(2, 0), (usize::MAX, 0), (1 << 32, 0)] {
        requested.pairs.clear();
        requested.pairs.insert(pair);
        assert_eq!(
            selected_inverse_entries(&f2(), &requested),
            Err(Error::RequestOutOfRange)
        );
    }
}

#[test]
fn non_positive_definite() {
    for diagonal in [0.0, -0.0, -1.0, f64::MIN] {
        let factor = CholeskyFactor::from_triplets(2, &[(0, 0, 1.0), (1, 1, diagonal)]).unwrap();
        assert_eq!(selected_inverse_diag(&factor), Err(Error::NonPositiveDefinite));
        assert_eq!(
            selected_inverse_entries_with_limit(&factor, &SparseSymmetricPattern::new(2), 0),
            Err(Error::NonPositiveDefinite)
        );
        assert_eq!(
            selected_inverse_transformed_diag(&factor, &SparseRowOperator::identity(2)),
            Err(Error::NonPositiveDefinite)
        );
    }
}

#[test]
fn not_covered() {
    // A full first column needs every pair: 1,830 of them, where 119 entries are stored.
    let n = 60;
    let triplets = (0..n)
        .map(|row| (row, 0, 1.0))
        .chain((1..n).map(|row| (row, row, 1.0)))
        .collect::<Vec<_>>();
    let factor = CholeskyFactor::from_triplets(n, &triplets).unwrap();
    assert!(lent::pair_total(n) > lent::default_limit(factor.nnz()));
    assert_eq!(selected_inverse_diag(&factor), Err(Error::NotCovered));
    let result = selected_inverse_transformed_diag(&factor, &SparseRowOperator::identity(n)).unwrap();
    assert!(result.estimate.is_none());
    assert_eq!(result.diagnostics.closure_pairs, result.diagnostics.closure_limit + 1);
    // With a limit of all pairs, and one below.
    let all = lent::pair_total(n);
    let cells = SparseRowOperator::identity(n);
    let corner = [(0, 0)];
    for limit in [all, usize::MAX] {
        let variances = selected_inverse_diag_with_limit(&factor, limit).unwrap();
        assert_eq!(
            (variances.estimate.values[0], variances.diagnostics.closure_limit),
            (60.0, limit)
        );
        let result = selected_inverse_transformed_diag_with_limit(&factor, &cells, limit).unwrap();
        assert_eq!(result.estimate.unwrap(), variances.estimate);
        let result =
            selected_inverse_transformed_covariances_with_limit(&factor, &cells, &cells, &corner, limit).unwrap();
        assert_eq!(result.covariances, Some(vec![60.0]));
    }
    assert_eq!(
        selected_inverse_diag_with_limit(&factor, all - 1),
        Err(Error::NotCovered)
    );
    let result = selected_inverse_transformed_diag_with_limit(&factor, &cells, all - 1).unwrap();
    assert_eq!((result.estimate, result.diagnostics.closure_pairs), (None, all));
    let result =
        selected_inverse_transformed_covariances_with_limit(&factor, &cells, &cells, &corner, all - 1).unwrap();
    assert_eq!((result.covariances, result.diagnostics.closure_pairs), (None, all));
}

#[test]
fn broken_operator() {
    for cell in [2, usize::MAX] {
        let rows = vec![vec![(0, 1.0), (cell, 1.0)]];
        assert_eq!(SparseRowOperator::new(2, rows.clone()), Err(Error::BrokenOperator));
        let operator = SparseRowOperator { ncols: 2, rows };
        assert_eq!(
            selected_inverse_transformed_diag(&f2(), &operator),
            Err(Error::BrokenOperator)
        );
        assert_eq!(
            SparseSymmetricPattern::from_transformed_operator(&operator),
            Err(Error::BrokenOperator)
        );
        let permuted = f2().with_permutation(Permutation::identity(2)).unwrap();
        assert_eq!(
            selected_inverse_transformed_diag(&permuted, &operator),
            Err(Error::BrokenOperator)
        );
    }
}

/// The refusals of covariances, each beside all later ones: whichever operator they are of, and with a permutation too.
#[test]
fn covariances_in_order() {
    let broken = |diagonal: f64| CholeskyFactor::from_triplets(2, &[(0, 0, 1.0), (1, 1, diagonal)]).unwrap();
    let large = SparseRowOperator {
        ncols: 3,
        rows: vec![vec![(9, 1.0)]; 4_097],
    };
    let other = SparseRowOperator {
        ncols: 3,
        rows: vec![vec![(9, 1.0)]],
    };
    let outside = SparseRowOperator {
        ncols: 2,
        rows: vec![vec![(0, 1.0)], vec![(2, 1.0)]],
    };
    let cells = SparseRowOperator::identity(2);
    let pair = [(0, 0)];
    let many = vec![(9, 9); MAX_ENTRIES + 1];
    for permuted in [false, true] {
        let factor = |diagonal: f64| {
            let order = Permutation::identity(2);
            if permuted {
                broken(diagonal).with_permutation(order).unwrap()
            } else {
                broken(diagonal)
            }
        };
        let refused = |diagonal: f64, a: &SparseRowOperator, b: &SparseRowOperator, pairs: &[(usize, usize)]| {
            let both = [
                selected_inverse_transformed_covariances(&factor(diagonal), a, b, pairs),
                selected_inverse_transformed_covariances(&factor(diagonal), b, a, pairs),
            ];
            both.map(|result| result.err())
        };
        assert_eq!(refused(0.0, &large, &outside, &pair), [Some(Error::TooLarge); 2]);
        assert_eq!(refused(0.0, &other, &outside, &many), [Some(Error::TooLarge); 2]);
        assert_eq!(
            refused(0.0, &other, &outside, &pair),
            [Some(Error::DimensionMismatch); 2]
        );
        // No row pair names the row with a cell outside.
        assert_eq!(refused(0.0, &outside, &cells, &pair), [Some(Error::BrokenOperator); 2]);
        assert_eq!(refused(1.0, &outside, &cells, &[]), [Some(Error::BrokenOperator); 2]);
        for outside in [(2, 0), (0, 2), (usize::MAX, 0), (1 << 32, 0), (0, 1 << 32)] {
            let pairs = [(0, 0), (1, 1), outside];
            assert_eq!(refused(0.0, &cells, &cells, &pairs), [Some(Error::BrokenOperator); 2]);
        }
        assert_eq!(
            refused(0.0, &cells, &cells, &pair),
            [Some(Error::NonPositiveDefinite); 2]
        );
        assert_eq!(
            refused(-1.0, &cells, &cells, &[]),
            [Some(Error::NonPositiveDefinite); 2]
        );
        assert_eq!(refused(1.0, &cells, &cells, &pair), [None; 2]);
    }
}

#[test]
fn broken_permutations() {
    let from = Permutation::from_orig_to_perm;
    assert_eq!(from(vec![9, 0, 0]), Err(Error::IndexTooLarge));
    assert_eq!(from(vec![0, usize::MAX, 0]), Err(Error::IndexTooLarge));
    assert_eq!(from(vec![0, 0, 9]), Err(Error::DuplicateEntry));
    let new = Permutation::new;
    assert_eq!(new(vec![0, 1], vec![0]), Err(Error::NotInverse));
    assert_eq!(new(vec![2, 0, 1], vec![2, 0, 1]), Err(Error::NotInverse));
    assert_eq!(new(vec![0, 1], vec![0, usize::MAX]), Err(Error::NotInverse));
    let tampered = Permutation {
        orig_to_perm: vec![0, 0],
        perm_to_orig: vec![0, 1],
    };
    assert_eq!(f2().with_permutation(tampered), Err(Error::DuplicateEntry));
}

#[test]
fn floors() {
    let scaled = |scale: f64| stabilize_variances(&[1.0], VarianceFloor::PositiveMean { scale });
    for value in [f64::NAN, f64::INFINITY, f64::NEG_INFINITY] {
        assert_eq!(
            stabilize_variances(&[1.0, value], VarianceFloor::Zero),
            Err(Error::NotFinite)
        );
        assert_eq!(scaled(value), Err(Error::BadScale));
    }
    assert_eq!(scaled(-1.0), Err(Error::BadScale));
    assert_eq!(scaled(-0.0).unwrap().floor, 0.0);
}

#[test]
fn request_files() {
    let header = redstartgilt::REQUEST_FILE_HEADER;
    let read = |text: String| SparseSymmetricPattern::from_matrix_market(text.as_bytes());
    assert_eq!(read(format!("{header} \n1 1 0\n")), Err(Error::OtherHeader));
    assert_eq!(read(format!("{header}\n1 2 0\n")), Err(Error::MalformedFile));
    assert_eq!(read(format!("{header}\n1 1 1\n1 2\n")), Err(Error::FileIndexOutside));
    assert_eq!(
        read(format!("{header}\n1 1 1\n1 1\n")),
        Ok(SparseSymmetricPattern::diagonal(1))
    );
}

#[test]
fn too_short() {
    let selected = selected_inverse_entries(&f2(), &SparseSymmetricPattern::diagonal(2)).unwrap();
    let inverse = selected.inverse.unwrap();
    for (values, marks) in [(1, 2), (2, 1), (0, 5), (5, 0)] {
        let (mut values, mut marks) = (vec![7.0; values], vec![7; marks]);
        assert_eq!(inverse.diag_into(&mut values, &mut marks), Err(Error::TooShort));
        assert!(values.iter().all(|value| *value == 7.0) && marks.iter().all(|mark| *mark == 7));
    }
    let (mut values, mut marks) = ([7.0; 3], [7; 4]);
    assert_eq!(inverse.diag_into(&mut values, &mut marks), Ok(()));
    assert_eq!((values, marks), ([5.0, 1.0, 7.0], [1, 1, 7, 7]));
}

const F2: FactorLists<'static> = FactorLists {
    n: 2,
    starts: &[0, 2, 3],
    rows: &[0, 1, 1],
    values: &[1.0, 2.0, 1.0],
};
const SUM: OperatorLists<'static> = OperatorLists {
    ncols: 2,
    row_starts: &[0, 2],
    columns: &[0, 1],
    weights: &[1.0, 1.0],
};

/// Lists of these lengths filled with 7, to see what a call changes.
struct Lent {
    starts: Vec<u32>,
    rows: Vec<u32>,
    values: Vec<f64>,
    scratch: Vec<u32>,
    output: Vec<f64>,
}

impl Lent {
    fn new([starts, rows, values, scratch, output]: [usize; 5]) -> Self {
        Self {
            starts: vec![7; starts],
            rows: vec![7; rows],
            values: vec![7.0; values],
            scratch: vec![7; scratch],
            output: vec![7.0; output],
        }
    }

    fn untouched(&self) -> bool {
        let words = [&self.starts, &self.rows, &self.scratch];
        let values = [&self.values, &self.output];
        words.iter().all(|list| list.iter().all(|word| *word == 7))
            && values.iter().all(|list| list.iter().all(|value| *value == 7.0))
    }

    fn result(&mut self) -> (ResultLists<'_>, &mut [u32], &mut [f64]) {
        (
            ResultLists {
                starts: &mut self.starts,
                rows: &mut self.rows,
                values: &mut self.values,
            },
            &mut self.scratch,
            &mut self.output,
        )
    }
}

#[test]
fn short_lists_are_left_as_they_were() {
    let enough = [3, 3, 3, 12, 2];
    for place in 0..enough.len() {
        let mut lengths = enough;
        lengths[place] -= 1;
        let mut lists = Lent::new(lengths);
        let (result, scratch, output) = lists.result();
        let reply = lent::selected_inverse_diag_with_diagnostics(F2, &[0, 1], result, scratch, output);
        assert_eq!(reply, Err(Error::TooShort), "{place}");
        assert!(lists.untouched());
    }
    let mut lists = Lent::new(enough);
    let (result, scratch, output) = lists.result();
    lent::selected_inverse_diag_with_diagnostics(F2, &[1, 0], result, scratch, output).unwrap();
    assert_eq!(lists.output, [1.0, 5.0]);
    assert_eq!(lists.scratch, [0; 12]);
}

/// The result lists need the lesser of the limit and all pairs, and past the limit no more is asked of them. The output
/// needs its places whatever the limit.
#[test]
fn outputs_with_a_limit() {
    let rows: &[u32] = &[0];
    type Call<'a> = &'a dyn Fn(usize, &mut Lent) -> Result<SelectedInverseDiagnostics, Error>;
    let calls: [Call<'_>; 3] = [
        &|limit, lists| {
            let (result, scratch, output) = lists.result();
            lent::selected_inverse_diag_with_limit(F2, &[1, 0], limit, result, scratch, output)
        },
        &|limit, lists| {
            let (result, scratch, output) = lists.result();
            lent::selected_inverse_transformed_diag_with_limit(F2, SUM, limit, result, scratch, output)
        },
        &|limit, lists| {
            let (result, scratch, output) = lists.result();
            lent::selected_inverse_transformed_covariances_with_limit(
                F2, SUM, SUM, rows, rows, limit, result, scratch, output,
            )
        },
    ];
    for (call, outputs) in calls.into_iter().zip([2, 1, 1]) {
        for limit in [0, 1, 2, 3, 4, usize::MAX] {
            let places = limit.min(3);
            let enough = [3, places, places, 12, outputs];
            for place in (0..enough.len()).filter(|place| enough[*place] > 0) {
                let mut lengths = enough;
                lengths[place] -= 1;
                let mut lists = Lent::new(lengths);
                assert_eq!(call(limit, &mut lists), Err(Error::TooShort), "{limit} {place}");
                assert!(lists.untouched());
            }
            let mut lists = Lent::new(enough);
            let reply = call(limit, &mut lists);
            assert_eq!(lists.scratch, [0; 12]);
            if limit < 3 {
                let before = Lent::new(enough);
                assert_eq!((lists.starts, lists.rows), (before.starts, before.rows));
                assert_eq!((lists.values, lists.output), (before.values, before.output));
                match reply {
                    Ok(counts) => assert_eq!((counts.closure_pairs, counts.closure_limit), (limit + 1, limit)),
                    Err(error) => assert_eq!((error, outputs), (Error::NotCovered, 2)),
                }
            } else {
                assert_eq!(reply.unwrap().closure_limit, limit);
                assert_eq!(lists.values, [5.0, -2.0, 1.0]);
                assert_eq!(lists.output, [&[1.0, 5.0][..], &[2.0]][usize::from(outputs == 1)]);
            }
        }
    }
}

#[test]
fn results_need_no_more_than_the_limit() {
    let mut lists = Lent::new([3, 1, 1, 12, 0]);
    let (result, scratch, _) = lists.result();
    let diagnostics = lent::selected_inverse_entries_with_limit(F2, 2, &[1], &[1], 1, result, scratch).unwrap();
    assert!(diagnostics.is_complete());
    assert_eq!(
        (lists.starts, lists.rows, lists.values),
        (vec![0, 0, 1], vec![1], vec![1.0])
    );
}

#[test]
fn lent_lists_of_unequal_length() {
    let mut lists = Lent::new([3, 3, 3, 12, 2]);
    let (result, scratch, _) = lists.result();
    let reply = lent::selected_inverse_entries(F2, 2, &[1], &[], result, scratch);
    assert_eq!(reply, Err(Error::DimensionMismatch));
    let (result, scratch, output) = lists.result();
    let reply = lent::selected_inverse_diag_with_diagnostics(F2, &[0], result, scratch, output);
    assert_eq!(reply, Err(Error::DimensionMismatch));
    let (result, scratch, output) = lists.result();
    let broken = OperatorLists { row_starts: &[], ..SUM };
    let reply = lent::selected_inverse_transformed_diag(F2, broken, result, scratch, output);
    assert_eq!(reply, Err(Error::BrokenOperator));
    assert!(lists.untouched());
    let (result, scratch, output) = lists.result();
    lent::selected_inverse_transformed_diag(F2, SUM, result, scratch, output).unwrap();
    assert_eq!(lists.output, [2.0, 7.0]);
}

#[test]
fn lent_covariances() {
    let enough = [3, 3, 3, 12, 2];
    for place in 0..enough.len() {
        let mut lengths = enough;
        lengths[place] -= 1;
        let mut lists = Lent::new(lengths);
        let (result, scratch, output) = lists.result();
        let reply =
            lent::selected_inverse_transformed_covariances(F2, SUM, SUM, &[0, 0], &[0, 0], result, scratch, output);
        assert_eq!(reply, Err(Error::TooShort), "{place}");
        assert!(lists.untouched());
    }
    let mut lists = Lent::new([4, 4, 4, 13, 3]);
    // Row pairs of unequal length, then a broken operator, then a row pair outside, then no diagonal.
    let broken = OperatorLists { row_starts: &[], ..SUM };
    let bare = FactorLists {
        values: &[1.0, 2.0, 0.0],
        ..F2
    };
    for (factor, a, b, a_rows, b_rows, error) in [
        (bare, broken, SUM, &[0, 9][..], &[0][..], Error::DimensionMismatch),
        (bare, SUM, broken, &[], &[0], Error::DimensionMismatch),
        (bare, broken, SUM, &[9], &[0], Error::BrokenOperator),
        (bare, SUM, broken, &[0], &[9], Error::BrokenOperator),
        (bare, SUM, SUM, &[0, 1], &[0, 0], Error::BrokenOperator),
        (bare, SUM, SUM, &[0, 0], &[0, 1], Error::BrokenOperator),
        (bare, SUM, SUM, &[0], &[0], Error::NonPositiveDefinite),
    ] {
        let (result, scratch, output) = lists.result();
        let reply =
            lent::selected_inverse_transformed_covariances(factor, a, b, a_rows, b_rows, result, scratch, output);
        assert_eq!(reply, Err(error));
        assert!(lists.untouched());
    }
    let (result, scratch, output) = lists.result();
    lent::selected_inverse_transformed_covariances(F2, SUM, SUM, &[0, 0], &[0, 0], result, scratch, output).unwrap();
    assert_eq!(lists.output, [2.0, 2.0, 7.0]);
    assert_eq!(lists.values, [5.0, -2.0, 1.0, 7.0]);
    assert_eq!((lists.scratch[11], lists.scratch[12]), (0, 7));
}

/// What calls are given beside a factor of dimension 2.
#[derive(Clone, Copy)]
struct Beside<'a> {
    dimension: usize,
    requests: &'a [u32],
    orig_to_perm: &'a [u32],
    operator: OperatorLists<'a>,
    row_pairs: &'a [u32],
    lengths: [usize; 5],
}

const SOUND: Beside<'static> = Beside {
    dimension: 2,
    requests: &[0, 1],
    orig_to_perm: &[1, 0],
    operator: SUM,
    row_pairs: &[0],
    lengths: [3, 3, 3, 12, 2],
};

/// The refusal of each call that takes a factor. A refused call must leave its lists as they were. Calls with an output
/// are made with a limit too, the number of all pairs, and must refuse alike.
fn refusals(factor: FactorLists<'_>, beside: Beside<'_>) -> [Option<Error>; 7] {
    std::array::from_fn(|call| {
        let mut lists = Lent::new(beside.lengths);
        let (result, scratch, output) = lists.result();
        let Beside {
            dimension,
            requests,
            orig_to_perm,
            operator,
            row_pairs,
            ..
        } = beside;
        let refused = match call {
            0 => lent::selected_inverse_entries_with_limit(factor, dimension, requests, requests, 3, result, scratch)
                .err(),
            1 => lent::selected_inverse_entries(factor, dimension, requests, requests, result, scratch).err(),
            2 => lent::selected_inverse_diag_with_diagnostics(factor, orig_to_perm, result, scratch, output).err(),
            3 => lent::selected_inverse_transformed_diag(factor, operator, result, scratch, output).err(),
            4 => lent::selected_inverse_transformed_covariances(
                factor, operator, operator, row_pairs, row_pairs, result, scratch, output,
            )
            .err(),
            5 => lent::from_cholesky_factor(factor, scratch, result.starts, result.rows).err(),
            _ => lent::check_factor(factor).err(),
        };
        assert!(refused.is_none() || lists.untouched(), "{call}");
        let mut lists = Lent::new(beside.lengths);
        let (result, scratch, output) = lists.result();
        let limited = match call {
            2 => lent::selected_inverse_diag_with_limit(factor, orig_to_perm, 3, result, scratch, output).err(),
            3 => lent::selected_inverse_transformed_diag_with_limit(factor, operator, 3, result, scratch, output).err(),
            4 => lent::selected_inverse_transformed_covariances_with_limit(
                factor, operator, operator, row_pairs, row_pairs, 3, result, scratch, output,
            )
            .err(),
            _ => return refused,
        };
        assert!(limited.is_none() || lists.untouched(), "{call}");
        assert_eq!(limited, refused, "{call}");
        refused
    })
}

const NOT_FINITE: [f64; 3] = [f64::NAN, f64::INFINITY, f64::NEG_INFINITY];

#[test]
fn entries_that_are_not_finite() {
    for value in NOT_FINITE {
        for (place, entry) in [(0, (0, 0)), (1, (1, 0)), (2, (1, 1))] {
            let mut values = [1.0, 2.0, 1.0];
            values[place] = value;
            let factor = FactorLists { values: &values, ..F2 };
            let refused = Error::NotFiniteEntry(Some(entry));
            assert_eq!(refusals(factor, SOUND), [Some(refused); 7], "{value} at {entry:?}");
            let made = CholeskyFactor::new(2, vec![0, 2, 3], vec![0, 1, 1], values.to_vec());
            assert_eq!(made, Err(refused));
            let (row, column) = entry;
            assert_eq!(
                refused.to_string(),
                format!("refusal 18: entry ({row}, {column}) of the factor is not finite")
            );
        }
        // The first is told, by column then row; those above the diagonal are none.
        for (values, entry) in [
            ([value, value, value, value], (0, 0)),
            ([1.0, value, value, value], (1, 0)),
            ([1.0, 2.0, value, value], (1, 1)),
        ] {
            let factor = FactorLists {
                starts: &[0, 2, 4],
                rows: &[0, 1, 0, 1],
                values: &values,
                ..F2
            };
            assert_eq!(refusals(factor, SOUND), [Some(Error::NotFiniteEntry(Some(entry))); 7]);
        }
    }
}

#[test]
fn above_the_diagonal_anything_is_accepted() {
    for value in NOT_FINITE {
        let factor = CholeskyFactor::new(2, vec![0, 2, 4], vec![0, 1, 0, 1], vec![1.0, 2.0, value, 1.0]).unwrap();
        assert_eq!(refusals(factor.lists(), SOUND), [None; 7]);
        assert_eq!(selected_inverse_diag(&factor).unwrap().values, [5.0, 1.0]);
        let kept = SparseSymmetricPattern::from_cholesky_factor(&factor);
        assert_eq!(kept, SparseSymmetricPattern::from_cholesky_factor(&f2()));
        assert_eq!(factor.lower_triplets(), f2().lower_triplets());
    }
}

/// 18 comes after 1, of whatever list, after 2 and after 3, and before all others.
#[test]
fn entries_that_are_not_finite_in_order() {
    let number = |refused: Option<Error>| refused.map_or(0, Error::number);
    let long = vec![0; MAX_ENTRIES + 1];
    let bare = FactorLists {
        values: &[1.0, 2.0, 0.0],
        ..F2
    };
    for value in NOT_FINITE {
        let values = [value, 2.0, 1.0];
        let broken = FactorLists { values: &values, ..F2 };
        for factor in [
            FactorLists { n: 4_097, ..broken },
            FactorLists { rows: &long, ..broken },
        ] {
            assert_eq!(refusals(factor, SOUND), [Some(Error::TooLarge); 7]);
        }
        let many_rows = OperatorLists {
            row_starts: &long[..4_098],
            ..SUM
        };
        for (beside, numbers) in [
            (
                Beside {
                    requests: &long,
                    ..SOUND
                },
                [1, 1, 18, 18, 18, 18, 18],
            ),
            (
                Beside {
                    operator: many_rows,
                    ..SOUND
                },
                [18, 18, 18, 1, 1, 18, 18],
            ),
            (
                Beside {
                    operator: OperatorLists { columns: &long, ..SUM },
                    ..SOUND
                },
                [18, 18, 18, 1, 1, 18, 18],
            ),
            (
                Beside {
                    row_pairs: &long,
                    ..SOUND
                },
                [18, 18, 18, 18, 1, 18, 18],
            ),
        ] {
            assert_eq!(refusals(broken, beside).map(number), numbers);
        }
        let starts = FactorLists {
            starts: &[0, 2, 2],
            ..broken
        };
        assert_eq!(refusals(starts, SOUND), [Some(Error::BrokenStarts); 7]);
        let rows = FactorLists {
            rows: &[0, 1, 2],
            ..broken
        };
        assert_eq!(refusals(rows, SOUND), [Some(Error::BrokenRows); 7]);

        let values = [value, 2.0, 0.0];
        let broken = FactorLists { values: &values, ..F2 };
        for (factor, beside, numbers) in [
            (
                F2,
                Beside {
                    dimension: 5,
                    orig_to_perm: &[0],
                    operator: OperatorLists { ncols: 3, ..SUM },
                    ..SOUND
                },
                [4, 4, 4, 4, 4, 0, 0],
            ),
            (
                F2,
                Beside {
                    requests: &[0, 2],
                    orig_to_perm: &[2, 0],
                    operator: OperatorLists {
                        columns: &[0, 2],
                        ..SUM
                    },
                    ..SOUND
                },
                [5, 5, 10, 9, 9, 0, 0],
            ),
            (
                F2,
                Beside {
                    orig_to_perm: &[1, 1],
                    row_pairs: &[1],
                    ..SOUND
                },
                [0, 0, 11, 0, 9, 0, 0],
            ),
            (bare, SOUND, [6, 6, 6, 6, 6, 0, 0]),
            (
                F2,
                Beside {
                    lengths: [0; 5],
                    ..SOUND
                },
                [7, 7, 7, 7, 7, 7, 0],
            ),
        ] {
            assert_eq!(refusals(factor, beside).map(number), numbers);
            let refused = Error::NotFiniteEntry(Some((0, 0)));
            assert_eq!(refusals(broken, beside), [Some(refused); 7]);
        }
    }
    // Triplets: one outside is told first.
    assert_eq!(
        CholeskyFactor::from_triplets(2, &[(0, 0, f64::NAN), (2, 1, 1.0)]),
        Err(Error::BrokenRows)
    );
    assert_eq!(
        CholeskyFactor::from_triplets(2, &[(0, 1, f64::NAN), (1, 1, f64::NAN), (0, 0, -1.0)]),
        Err(Error::NotFiniteEntry(Some((1, 1))))
    );
}

/// 1, 2, 3 and 18 in this order, each with the faults of all later ones; a column without a diagonal is none.
#[test]
fn checked_factors() {
    let values = [f64::NAN, 2.0, 1.0];
    let last = FactorLists { values: &values, ..F2 };
    let rows = FactorLists {
        rows: &[1, 0, 2],
        ..last
    };
    let starts = FactorLists {
        starts: &[0, 2, 2],
        ..rows
    };
    let large = FactorLists { n: 4_097, ..starts };
    for (factor, refused) in [
        (large, Error::TooLarge),
        (starts, Error::BrokenStarts),
        (rows, Error::BrokenRows),
        (last, Error::NotFiniteEntry(Some((0, 0)))),
    ] {
        assert_eq!(lent::check_factor(factor), Err(refused));
        let made = CholeskyFactor::new(
            factor.n,
            factor.starts.to_vec(),
            factor.rows.to_vec(),
            factor.values.to_vec(),
        );
        assert_eq!(made, Err(refused));
    }
    let most = FactorLists { n: 4_096, ..starts };
    assert_eq!(lent::check_factor(most), Err(Error::BrokenStarts));
    for values in [[0.0; 3], [-1.0, 2.0, -0.0], [1.0, 2.0, 1.0]] {
        assert_eq!(lent::check_factor(FactorLists { values: &values, ..F2 }), Ok(()));
    }
    let nothing = FactorLists {
        n: 0,
        starts: &[0],
        rows: &[],
        values: &[],
    };
    assert_eq!(lent::check_factor(nothing), Ok(()));
    assert_eq!(
        lent::check_factor(FactorLists { starts: &[], ..nothing }),
        Err(Error::BrokenStarts)
    );
}

#[test]
fn lookups_in_broken_lists() {
    let entries = EntryLists {
        starts: &[0, 2, 1],
        rows: &[1, 0],
        values: &[1.0, 1.0],
    };
    assert_eq!(lent::get(entries, 1, 0), Err(Error::BrokenRows));
    assert_eq!(lent::get(entries, 1, 1), Err(Error::BrokenStarts));
    assert_eq!(lent::get(entries, 2, 2), Err(Error::NotCovered));
    let nothing = EntryLists {
        starts: &[],
        rows: &[],
        values: &[],
    };
    assert_eq!(lent::get(nothing, 0, 0), Err(Error::BrokenStarts));
    assert_eq!(lent::diag(nothing, &mut [], &mut []), Err(Error::BrokenStarts));
    // Column 0 is looked at before column 1, and both before the lists lent.
    assert_eq!(lent::diag(entries, &mut [], &mut []), Err(Error::BrokenRows));
}

#[test]
fn short_request_lists() {
    let text = format!("{}\n2 2 2\n2 1\n2 2\n", redstartgilt::REQUEST_FILE_HEADER);
    for (rows, columns) in [(1, 2), (2, 1), (0, 5), (5, 0)] {
        let (mut rows, mut columns) = (vec![7; rows], vec![7; columns]);
        let reply = lent::read_requests(text.as_bytes(), &mut rows, &mut columns);
        assert_eq!(reply, Err(Error::TooShort));
        assert!(rows.iter().chain(&columns).all(|word| *word == 7));
    }
    let (mut rows, mut columns) = ([7; 2], [7; 3]);
    lent::read_requests(text.as_bytes(), &mut rows, &mut columns).unwrap();
    assert_eq!((rows, columns), ([1, 1], [0, 1, 7]));
}

#[test]
fn pattern_lists() {
    let (mut scratch, mut rows, mut columns) = ([7; 3], [7; 2], [7; 3]);
    assert_eq!(
        lent::from_cholesky_factor(F2, &mut [], &mut rows, &mut columns),
        Err(Error::TooShort)
    );
    // Three bits stand in one word; those behind it stay.
    assert_eq!(lent::mark_words(2), 1);
    assert_eq!(
        lent::from_cholesky_factor(F2, &mut scratch, &mut rows, &mut columns),
        Err(Error::TooShort)
    );
    assert_eq!((scratch, rows, columns), ([0, 7, 7], [7; 2], [7; 3]));
    let mut rows = [7; 4];
    let mut columns = [7; 4];
    assert_eq!(
        lent::from_transformed_operator(SUM, &mut scratch, &mut rows, &mut columns),
        Ok(3)
    );
    assert_eq!((rows, columns), ([0, 1, 1, 7], [0, 0, 1, 7]));
}
