//! Calls at the bounds.

use crate::call::Call;
use crate::files::plain_file;
use crate::function::{Function, FUNCTIONS};
use crate::lend::lend;
use crate::list::List;
use crate::matrix_market::HEADER;
use crate::random::Random;
use crate::refusals::{MOST_COLUMNS, MOST_ENTRIES};
use crate::sound::sound;
use crate::subjects::{FactorLists, OperatorLists, Pair, PairLists, RequestLists, RowPairLists};
use crate::variance_cases::calls_at_the_bounds;
use crate::whole_cases::calls_at_the_greatest;
use crate::whole_factors::as_floats;
use crate::written_lists::written_at_the_bounds;

/// Calls on both sides of each bound of document 01's step 1, of those of files, of the greatest whole number, and of those of
/// rows and tracks over results; those within it are accepted, or refused by a later step.
pub fn bounds() -> Vec<Call> {
    let mut random = Random::new(0);
    let mut calls = Vec::new();
    let long = |count: usize| List::made(count, |_| 0u32);
    let zeros = |count: usize| List::made(count, |_| 0.0);
    for n in [MOST_COLUMNS, MOST_COLUMNS + 1] {
        calls.extend(FUNCTIONS.map(|function| sound(function, n, &mut random)));
        // an operator of n rows over a small factor
        for function in [Function::OperatorVariances, Function::OperatorPattern] {
            let mut call = sound(function, 2, &mut random);
            call.operator =
                OperatorLists { row_starts: long(n + 1), columns: long(0), weights: zeros(0), ..call.operator };
            calls.push(call);
        }
        // two operators, one of them of n rows, the last of them in a row pair
        let operator = |rows: usize| OperatorLists {
            ncols: 2,
            row_starts: List::made(rows + 1, |at| u32::from(at == rows)),
            columns: long(1),
            weights: List::made(1, |_| 2.0),
        };
        let row_pair =
            |a: usize, b: usize| RowPairLists { a_rows: List::new(&[a as u32, 0]), b_rows: List::new(&[b as u32, 0]) };
        let two = sound(Function::Covariances, 2, &mut random);
        for (a, b) in [(1, n), (n, 1)] {
            let row_pairs = row_pair(a - 1, b - 1);
            calls.push(Call { operator: operator(a), other: operator(b), row_pairs, ..two.clone() });
        }
        // one of two lists alone passes the bound
        let mut one_of_two = |function: Function, change: &dyn Fn(&mut Call)| {
            let mut call = sound(function, n, &mut random);
            change(&mut call);
            calls.push(call);
        };
        one_of_two(Function::Validate, &|call| call.permutation.orig_to_perm = long(1));
        one_of_two(Function::Validate, &|call| call.permutation.perm_to_orig = long(1));
        for function in [Function::Reorder, Function::ReorderMarked] {
            one_of_two(function, &|call| call.permutation.orig_to_perm = long(1));
            one_of_two(function, &|call| call.values.input = zeros(1));
        }
        let mut call = sound(Function::ReorderMarked, 1, &mut random);
        call.values.marks = List::made(n, |_| 1);
        calls.push(call);
        let mut call = sound(Function::OriginalDiag, 3, &mut random);
        call.permutation.orig_to_perm = long(n);
        calls.push(call);
        // pivots past the bound of a small factor
        for function in [Function::LdlEntriesWithLimit, Function::LdlEntries] {
            let mut call = sound(function, 3, &mut random);
            call.pivots = List::made(n, |_| 1.0);
            calls.push(call);
        }
    }
    for count in [MOST_ENTRIES, MOST_ENTRIES + 1] {
        // stored entries: the starts are those of another factor
        for function in [
            Function::EntriesWithLimit,
            Function::Entries,
            Function::LdlEntriesWithLimit,
            Function::LdlEntries,
            Function::OriginalDiagWithLimit,
            Function::OriginalDiag,
            Function::OperatorVariancesWithLimit,
            Function::OperatorVariances,
            Function::CovariancesWithLimit,
            Function::Covariances,
            Function::DependencyChain,
            Function::CheckFactor,
            Function::FactorPattern,
        ] {
            let mut call = sound(function, 3, &mut random);
            (call.factor.rows, call.factor.values) = (long(count), zeros(count));
            calls.push(call);
        }
        for function in [Function::WholeEntriesWithLimit, Function::WholeEntries, Function::CheckWholeFactor] {
            let mut call = sound(function, 3, &mut random);
            (call.whole_factor.rows, call.whole_factor.values) = (long(count), List::made(count, |_| 0));
            calls.push(call);
        }
        // requests: of so many one pair is distinct
        for function in [
            Function::EntriesWithLimit,
            Function::Entries,
            Function::LdlEntriesWithLimit,
            Function::LdlEntries,
            Function::WholeEntriesWithLimit,
            Function::WholeEntries,
            Function::DependencyChain,
            Function::WriteRequests,
        ] {
            let mut call = sound(function, 3, &mut random);
            (call.requests.rows, call.requests.columns) = (long(count), long(count));
            calls.push(call);
            let mut call = sound(function, 3, &mut random);
            call.requests.columns = long(count);
            calls.push(call);
        }
        // operator terms: the row starts are those of another operator
        for function in [Function::OperatorVariances, Function::OperatorPattern, Function::Covariances] {
            let mut call = sound(function, 3, &mut random);
            (call.operator.columns, call.operator.weights) = (long(count), zeros(count));
            calls.push(call);
        }
        let mut call = sound(Function::Covariances, 3, &mut random);
        (call.other.columns, call.other.weights) = (long(count), zeros(count));
        calls.push(call);
        calls.extend(row_pairs(count));
        for function in [Function::FloorZero, Function::FloorMean, Function::Least] {
            let mut call = sound(function, 3, &mut random);
            call.values.input = List::made(count, |at| at as f64 - 9.0);
            calls.push(call);
        }
    }
    // as many stored entries as are allowed: every row of the last columns
    let (n, full) = (MOST_COLUMNS, 1_024);
    let counts = |c: usize| if c < n - full { 1 } else { n - c };
    let total: usize = (0..n).map(counts).sum();
    let mut rest = MOST_ENTRIES - total;
    let (mut starts, mut rows) = (vec![0], Vec::new());
    for c in 0..n {
        // rows above the diagonal are dropped entries
        let above = rest.min(c);
        rest -= above;
        rows.extend((c - above..c).chain(c..c + counts(c)).map(|r| r as u32));
        starts.push(rows.len() as u32);
    }
    assert_eq!(rows.len(), MOST_ENTRIES);
    let values = List::made(rows.len(), |at| 1.0 + rows[at] as f64 / 4096.0);
    let factor = FactorLists { n, starts: List::new(&starts), rows: List::new(&rows), values };
    // the same in ones, whose inverse has the entries 0, 1, -1 and 2 alone
    let ones = List::made(rows.len(), |_| 1);
    let whole_factor = FactorLists { n, starts: List::new(&starts), rows: List::new(&rows), values: ones };
    let request = List::new(&[(n - full / 2) as u32]);
    for function in [
        Function::CheckFactor,
        Function::FactorPattern,
        Function::Entries,
        Function::CheckWholeFactor,
        Function::WholeEntries,
        Function::DependencyChain,
    ] {
        calls.push(Call {
            factor: factor.clone(),
            whole_factor: whole_factor.clone(),
            requests: RequestLists { dimension: n, rows: request.clone(), columns: request.clone() },
            pair: Pair { row: n - 1, column: n - 1 },
            ..sound(function, 0, &mut random)
        });
    }
    calls.push(Call {
        factor: as_floats(&whole_factor),
        pivots: List::made(n, |_| 1.0),
        requests: RequestLists { dimension: n, rows: request.clone(), columns: request.clone() },
        ..sound(Function::LdlEntries, 0, &mut random)
    });
    calls.extend(pairs());
    calls.extend(calls_at_the_greatest(30));
    let file = |text: &Vec<u8>| Call { function: Function::ReadRequests, text: List::new(text), ..Call::default() };
    calls.extend(files().iter().map(file));
    for call in &mut calls {
        lend(call, &mut random, |_, need| need);
    }
    calls.extend(calls_at_the_bounds(100));
    calls.extend(written_at_the_bounds(&mut random));
    // the longest chain with a list one place short
    let longest = calls.iter().rfind(|call| call.function == Function::DependencyChain).expect("made above").clone();
    let words = |count: usize| List::made(count, |at| at as u32);
    let length = longest.pairs.rows.len();
    assert_eq!(length, 2 * MOST_COLUMNS - 1);
    let pair_lists = |rows: usize, columns: usize| PairLists { rows: words(rows), columns: words(columns) };
    calls.push(Call { pairs: pair_lists(length - 1, length), ..longest.clone() });
    calls.push(Call { pairs: pair_lists(length, length - 1), ..longest.clone() });
    calls.push(Call { scratch: words(longest.scratch.len() - 1), ..longest });
    // a file without entries, with a list one place short
    let diagonal = file(&plain_file([&[n, n, 0][..]]));
    for (rows, columns) in [(n - 1, n), (n, n - 1), (n + 1, n), (0, n)] {
        calls.push(Call { pairs: pair_lists(rows, columns), ..diagonal.clone() });
    }
    // files of as many entries as are allowed, with a list one place short
    let longest = file(&longest_file(MOST_ENTRIES));
    for (rows, columns) in [(MOST_ENTRIES - 1, MOST_ENTRIES), (MOST_ENTRIES, MOST_ENTRIES - 1)] {
        calls.push(Call { pairs: pair_lists(rows, columns), ..longest.clone() });
    }
    calls
}

/// Calls for covariances with so many row pairs: counted by A's list, which alone decides; in B's list alone; and so many
/// terms in a row of A, or of B.
fn row_pairs(count: usize) -> Vec<Call> {
    let words = |count: usize, of: fn(usize) -> usize| List::made(count, |at| of(at) as u32);
    let long = OperatorLists {
        ncols: 2,
        row_starts: List::new(&[0, count as u32]),
        columns: words(count, |at| at % 2),
        weights: List::made(count, |at| (at % 5) as f64 - 2.0),
    };
    let small = Call {
        function: Function::Covariances,
        factor: FactorLists {
            n: 2,
            starts: List::new(&[0, 2, 3]),
            rows: List::new(&[0, 1, 1]),
            values: List::new(&[1.0, 2.0, 1.0]),
        },
        operator: OperatorLists {
            ncols: 2,
            row_starts: List::new(&[0, 1, 1, 3]),
            columns: List::new(&[0, 0, 1]),
            weights: List::new(&[1.0, 3.0, 0.5]),
        },
        other: OperatorLists {
            ncols: 2,
            row_starts: List::new(&[0, 2, 3]),
            columns: List::new(&[1, 0, 1]),
            weights: List::new(&[1.5, -2.0, 4.0]),
        },
        ..Call::default()
    };
    let pairs = |a: usize, b: usize| Call {
        row_pairs: RowPairLists { a_rows: words(a, |at| at % 3), b_rows: words(b, |at| at % 2) },
        ..small.clone()
    };
    let long_a = Call {
        operator: long.clone(),
        row_pairs: RowPairLists { a_rows: words(2, |_| 0), b_rows: words(2, |at| at) },
        ..small.clone()
    };
    let long_b = Call {
        other: long,
        row_pairs: RowPairLists { a_rows: words(2, |at| 2 * at), b_rows: words(2, |_| 0) },
        ..small.clone()
    };
    vec![pairs(count, count), pairs(count, 1), pairs(0, count), pairs(1, count), long_a, long_b]
}

/// Calls for a chain to a pair at both sides of n, in either place, of a small factor and of one with the most columns: each
/// column has the next row, so that no chain is longer than that to the last pair.
fn pairs() -> Vec<Call> {
    let mut calls = Vec::new();
    for n in [1, 2, MOST_COLUMNS] {
        let band = Call {
            function: Function::DependencyChain,
            factor: FactorLists {
                n,
                starts: List::made(n + 1, |c| (2 * c).min(2 * n - 1) as u32),
                rows: List::made(2 * n - 1, |p| p.div_ceil(2) as u32),
                values: List::made(2 * n - 1, |_| 1.0),
            },
            requests: RequestLists { dimension: n, rows: List::new(&[0]), columns: List::new(&[0]) },
            ..Call::default()
        };
        let mut pair = |row: usize, column: usize| calls.push(Call { pair: Pair { row, column }, ..band.clone() });
        for outside in [n, (1 << 32) + n - 1, usize::MAX] {
            pair(outside, n - 1);
            pair(n - 1, outside);
        }
        pair(n - 1, n - 1);
    }
    calls
}

/// A file of so many entries, four bytes each.
fn longest_file(count: usize) -> Vec<u8> {
    let mut text = plain_file([&[MOST_COLUMNS, MOST_COLUMNS, count][..]]);
    for k in 0..count {
        text.extend([b'3' + (k * k % 7) as u8, b' ', b'1' + (k % 3) as u8, b'\n']);
    }
    text
}

/// Files at the bounds of sizes, counts, indices and lengths.
fn files() -> Vec<Vec<u8>> {
    let (n, most) = (MOST_COLUMNS, MOST_ENTRIES);
    let mut files =
        vec![Vec::new(), HEADER.to_vec(), [HEADER, b"\n"].concat(), longest_file(most), longest_file(most + 1)];
    for lines in [
        // sizes and indices
        &[&[n, n, 1][..], &[n, n]][..],
        &[&[n + 1, n + 1, 1], &[1, 1]],
        &[&[n, n, 1], &[n + 1, 1]],
        &[&[n, n, 1], &[n, 0]],
        &[&[0, 0, 0]],
        // every diagonal cell
        &[&[1, 1, 0]],
        &[&[n, n, 0]],
        &[&[n + 1, n + 1, 0]],
        &[&[0, 0, 1], &[1, 1]],
        &[&[(1 << 32) + 2, (1 << 32) + 2, 0]],
        &[&[usize::MAX, usize::MAX, 0]],
        &[&[2, 2, 1], &[(1 << 32) + 1, 1]],
        &[&[2, 2, 1], &[2, (1 << 32) + 1]],
        // counts
        &[&[2, 2, most], &[1, 1]],
        &[&[2, 2, most + 1]],
        &[&[2, 2, (1 << 32) + 1], &[1, 1]],
        &[&[2, 2, usize::MAX]],
    ] {
        files.push(plain_file(lines.iter().copied()));
    }
    // numbers of 400 digits, of 400 zeros, of 400 zeros before a digit, and 2 more than 2^64
    let (nines, zeros, past) = ("9".repeat(400), "0".repeat(400), "18446744073709551618");
    for lines in [
        format!("{nines} {nines} 0"),
        format!("{past} {past} 0"),
        format!("{past} 2 0"),
        format!("{zeros}2 2 {zeros}1\n{zeros}2 {zeros}1"),
        format!("{zeros} {zeros} {zeros}"),
        format!("2 2 {nines}"),
        format!("2 2 {past}\n1 1\n2 2"),
        format!("2 2 1\n{nines} 1"),
        format!("2 2 1\n2 {nines}"),
        format!("2 2 1\n{past} 1"),
        format!("2 2 1\n{zeros} 1"),
        format!("2 2 1\n2 {zeros}"),
    ] {
        files.push([HEADER, b"\n", lines.as_bytes()].concat());
    }
    files
}
