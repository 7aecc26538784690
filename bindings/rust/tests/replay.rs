//! The linked library on the cases of program `replay`: every answer, and every place of every lent list, is that of
//! crates/replay/stdout. The text form is in replay/README.md.

use redstartgilt::sys;
use std::collections::{BTreeSet, HashMap};
use std::fmt::Write;
use std::path::PathBuf;

/// The fields of a case, each its words after the name.
struct Case<'a> {
    head: &'a str,
    kind: &'a str,
    fields: HashMap<&'a str, Vec<&'a str>>,
}

impl<'a> Case<'a> {
    fn has(&self, name: &str) -> bool {
        self.fields.contains_key(name)
    }

    fn word(&self, name: &str) -> &'a str {
        self.fields[name][0]
    }

    fn number(&self, name: &str) -> usize {
        self.word(name).parse().unwrap()
    }

    fn items(&self, name: &str) -> &[&'a str] {
        let words = &self.fields[name];
        assert_eq!(words[0].parse::<usize>().unwrap(), words.len() - 1, "{name}");
        &words[1..]
    }

    fn words(&self, name: &str) -> Vec<u32> {
        self.items(name).iter().map(|word| word.parse().unwrap()).collect()
    }

    /// Bytes as two hexadecimal digits each.
    fn bytes(&self, name: &str) -> Vec<u8> {
        let items = self.items(name).iter();
        items
            .map(|word| {
                assert_eq!(word.len(), 2, "{name}");
                u8::from_str_radix(word, 16).unwrap()
            })
            .collect()
    }

    /// Bytes as decimal numbers.
    fn marks(&self, name: &str) -> Vec<u8> {
        self.items(name).iter().map(|word| word.parse().unwrap()).collect()
    }

    fn values(&self, name: &str) -> Vec<f64> {
        self.items(name).iter().map(|word| value(word)).collect()
    }

    fn wholes(&self, name: &str) -> Vec<i64> {
        self.items(name).iter().map(|word| word.parse().unwrap()).collect()
    }

    /// A list lent for writing, or one of 7777s.
    fn lent_words(&self, name: &str, length: usize) -> Vec<u32> {
        if self.has(name) {
            self.words(name)
        } else {
            vec![7777; length]
        }
    }

    fn lent_values(&self, name: &str, length: usize) -> Vec<f64> {
        if self.has(name) {
            self.values(name)
        } else {
            vec![7777.0; length]
        }
    }

    fn lent_wholes(&self, name: &str, length: usize) -> Vec<i64> {
        if self.has(name) {
            self.wholes(name)
        } else {
            vec![7777; length]
        }
    }

    fn lent_marks(&self, name: &str, length: usize) -> Vec<u8> {
        if self.has(name) {
            self.marks(name)
        } else {
            vec![77; length]
        }
    }
}

fn value(digits: &str) -> f64 {
    f64::from_bits(u64::from_str_radix(digits, 16).unwrap())
}

fn shown(value: f64) -> String {
    if value.is_nan() {
        "nan".to_string()
    } else {
        format!("{:016x}", value.to_bits())
    }
}

/// Items that `same` joins are written once, as item*k.
fn put_items<T>(
    answer: &mut String,
    name: &str,
    items: &[T],
    same: impl Fn(&T, &T) -> bool,
    show: impl Fn(&T) -> String,
) {
    let _ = write!(answer, "{name} {}", items.len());
    let mut place = 0;
    while place < items.len() {
        let rest = items[place..].iter();
        let times = rest.skip(1).take_while(|item| same(&items[place], item)).count() + 1;
        let _ = match times {
            1 => write!(answer, " {}", show(&items[place])),
            _ => write!(answer, " {}*{times}", show(&items[place])),
        };
        place += times;
    }
    answer.push('\n');
}

fn put_words(answer: &mut String, name: &str, list: &[u32]) {
    put_items(answer, name, list, u32::eq, u32::to_string);
}

fn put_marks(answer: &mut String, name: &str, list: &[u8]) {
    put_items(answer, name, list, u8::eq, u8::to_string);
}

/// Zeros and NaNs are written one by one.
fn put_values(answer: &mut String, name: &str, list: &[f64]) {
    put_items(answer, name, list, |a, b| a == b && *a != 0.0, |value| shown(*value));
}

fn put_wholes(answer: &mut String, name: &str, list: &[i64]) {
    put_items(answer, name, list, i64::eq, i64::to_string);
}

fn put_reply(answer: &mut String, refusal: u32) -> bool {
    let _ = match refusal {
        0 => writeln!(answer, "reply ok"),
        number => writeln!(answer, "reply {number}"),
    };
    refusal == 0
}

fn put_selected(answer: &mut String, reply: &sys::redstartgilt_selected) {
    if put_reply(answer, reply.refusal) {
        let status = match reply.status {
            sys::REDSTARTGILT_COMPLETE => "Complete",
            sys::REDSTARTGILT_CLOSURE_TOO_LARGE => "ClosureTooLarge",
            other => panic!("status {other}"),
        };
        let _ = write!(
            answer,
            "status {status}\nrequested {}\nclosure {}\nfactor {}\nlimit {}\nratio {}\n",
            reply.requested_pairs,
            reply.closure_pairs,
            reply.factor_pairs,
            reply.closure_limit,
            shown(reply.closure_over_factor)
        );
    } else {
        assert_eq!(
            *reply,
            sys::redstartgilt_selected {
                refusal: reply.refusal,
                status: 0,
                requested_pairs: 0,
                closure_pairs: 0,
                factor_pairs: 0,
                closure_limit: 0,
                closure_over_factor: 0.0,
            }
        );
    }
}

/// A lookup for each pair of the case; `get` gives the refusal and the value as it is written.
fn put_gets(answer: &mut String, case: &Case<'_>, get: impl Fn(usize, usize) -> (u32, String)) {
    let pairs = case.words("prows").into_iter().zip(case.words("pcols"));
    let items = pairs
        .map(|(row, column)| match get(row as usize, column as usize) {
            (0, value) => value,
            (8, _) => "none".to_string(),
            (number, _) => format!("refused-{number}"),
        })
        .collect::<Vec<_>>();
    put_items(answer, "gets", &items, |_, _| false, String::clone);
}

fn put_value_gets(answer: &mut String, starts: &[u32], rows: &[u32], values: &[f64], case: &Case<'_>) {
    put_gets(answer, case, |row, column| {
        let reply = unsafe {
            sys::redstartgilt_get(
                starts.as_ptr(),
                starts.len(),
                rows.as_ptr(),
                rows.len(),
                values.as_ptr(),
                values.len(),
                row,
                column,
            )
        };
        (reply.refusal, shown(reply.value))
    });
}

fn put_whole_gets(answer: &mut String, starts: &[u32], rows: &[u32], values: &[i64], case: &Case<'_>) {
    put_gets(answer, case, |row, column| {
        let reply = unsafe {
            sys::redstartgilt_get_whole(
                starts.as_ptr(),
                starts.len(),
                rows.as_ptr(),
                rows.len(),
                values.as_ptr(),
                values.len(),
                row,
                column,
            )
        };
        (reply.refusal, reply.value.to_string())
    });
}

/// Selected entries in whole numbers.
fn wholes(answer: &mut String, case: &Case<'_>) {
    let n = case.number("n");
    let (starts, rows, values) = (case.words("starts"), case.words("rows"), case.wholes("wvalues"));
    let (request_rows, request_columns) = (case.words("rrows"), case.words("rcols"));
    let dimension = case.number("rdim");
    let mut result_starts = case.lent_words("lstarts", 4_608);
    let mut result_rows = case.lent_words("lrows", 33_024);
    let mut result_values = case.lent_wholes("lwvalues", 33_024);
    let mut scratch = case.lent_words("lscratch", 67_072);
    let mut work = case.lent_wholes("lwork", 33_024);
    let reply = match case.word("limit") {
        "default" => unsafe {
            sys::redstartgilt_selected_inverse_entries_whole(
                n,
                starts.as_ptr(),
                starts.len(),
                rows.as_ptr(),
                rows.len(),
                values.as_ptr(),
                values.len(),
                dimension,
                request_rows.as_ptr(),
                request_rows.len(),
                request_columns.as_ptr(),
                request_columns.len(),
                result_starts.as_mut_ptr(),
                result_starts.len(),
                result_rows.as_mut_ptr(),
                result_rows.len(),
                result_values.as_mut_ptr(),
                result_values.len(),
                scratch.as_mut_ptr(),
                scratch.len(),
                work.as_mut_ptr(),
                work.len(),
            )
        },
        limit => unsafe {
            sys::redstartgilt_selected_inverse_entries_whole_with_limit(
                n,
                starts.as_ptr(),
                starts.len(),
                rows.as_ptr(),
                rows.len(),
                values.as_ptr(),
                values.len(),
                dimension,
                request_rows.as_ptr(),
                request_rows.len(),
                request_columns.as_ptr(),
                request_columns.len(),
                limit.parse().unwrap(),
                result_starts.as_mut_ptr(),
                result_starts.len(),
                result_rows.as_mut_ptr(),
                result_rows.len(),
                result_values.as_mut_ptr(),
                result_values.len(),
                scratch.as_mut_ptr(),
                scratch.len(),
                work.as_mut_ptr(),
                work.len(),
            )
        },
    };
    put_selected(answer, &reply);
    put_words(answer, "starts", &result_starts);
    put_words(answer, "rows", &result_rows);
    put_wholes(answer, "wvalues", &result_values);
    put_words(answer, "scratch", &scratch);
    put_wholes(answer, "work", &work);
    if (reply.refusal, reply.status) == (0, sys::REDSTARTGILT_COMPLETE) && case.has("prows") {
        put_whole_gets(answer, &result_starts[..n + 1], &result_rows, &result_values, case);
    }
}

/// Bounds on the variance of a row with weights in ranges.
fn bounds(answer: &mut String, case: &Case<'_>) {
    let (starts, rows, values) = (case.words("starts"), case.words("rows"), case.wholes("wvalues"));
    let (columns, lows, highs) = (case.words("cols"), case.wholes("lows"), case.wholes("highs"));
    let reply = unsafe {
        sys::redstartgilt_variance_bounds_whole(
            starts.as_ptr(),
            starts.len(),
            rows.as_ptr(),
            rows.len(),
            values.as_ptr(),
            values.len(),
            columns.as_ptr(),
            columns.len(),
            lows.as_ptr(),
            lows.len(),
            highs.as_ptr(),
            highs.len(),
        )
    };
    if put_reply(answer, reply.refusal) {
        let _ = write!(answer, "low {}\nhigh {}\n", reply.low, reply.high);
    } else {
        assert_eq!((reply.low, reply.high), (0, 0));
    }
}

/// Variances along a track.
fn tracks(answer: &mut String, case: &Case<'_>) {
    let (starts, rows, values) = (case.words("starts"), case.words("rows"), case.wholes("wvalues"));
    let track = case.words("cells");
    let mut output = case.lent_wholes("lwout", 4_608);
    let refusal = unsafe {
        sys::redstartgilt_track_variances_whole(
            starts.as_ptr(),
            starts.len(),
            rows.as_ptr(),
            rows.len(),
            values.as_ptr(),
            values.len(),
            track.as_ptr(),
            track.len(),
            case.number("width"),
            output.as_mut_ptr(),
            output.len(),
        )
    };
    put_reply(answer, refusal);
    put_wholes(answer, "wout", &output);
}

/// Entries, with pivots or without, the diagonal in original order, operator variances and covariances: all take a factor and fill result lists.
fn selected(answer: &mut String, case: &Case<'_>) {
    let n = case.number("n");
    let (starts, rows, values) = (case.words("starts"), case.words("rows"), case.values("values"));
    let mut result_starts = case.lent_words("lstarts", 4_608);
    let mut result_rows = case.lent_words("lrows", 33_024);
    let mut result_values = case.lent_values("lvalues", 33_024);
    let mut scratch = case.lent_words("lscratch", 67_072);
    let mut output = case.lent_values("lout", 4_608);
    let reply = match case.kind {
        "entries" => {
            let (request_rows, request_columns) = (case.words("rrows"), case.words("rcols"));
            let dimension = case.number("rdim");
            match case.word("limit") {
                "default" => unsafe {
                    sys::redstartgilt_selected_inverse_entries(
                        n,
                        starts.as_ptr(),
                        starts.len(),
                        rows.as_ptr(),
                        rows.len(),
                        values.as_ptr(),
                        values.len(),
                        dimension,
                        request_rows.as_ptr(),
                        request_rows.len(),
                        request_columns.as_ptr(),
                        request_columns.len(),
                        result_starts.as_mut_ptr(),
                        result_starts.len(),
                        result_rows.as_mut_ptr(),
                        result_rows.len(),
                        result_values.as_mut_ptr(),
                        result_values.len(),
                        scratch.as_mut_ptr(),
                        scratch.len(),
                    )
                },
                limit => unsafe {
                    sys::redstartgilt_selected_inverse_entries_with_limit(
                        n,
                        starts.as_ptr(),
                        starts.len(),
                        rows.as_ptr(),
                        rows.len(),
                        values.as_ptr(),
                        values.len(),
                        dimension,
                        request_rows.as_ptr(),
                        request_rows.len(),
                        request_columns.as_ptr(),
                        request_columns.len(),
                        limit.parse().unwrap(),
                        result_starts.as_mut_ptr(),
                        result_starts.len(),
                        result_rows.as_mut_ptr(),
                        result_rows.len(),
                        result_values.as_mut_ptr(),
                        result_values.len(),
                        scratch.as_mut_ptr(),
                        scratch.len(),
                    )
                },
            }
        }
        "ldl" => {
            let pivots = case.values("pivots");
            let (request_rows, request_columns) = (case.words("rrows"), case.words("rcols"));
            let dimension = case.number("rdim");
            match case.word("limit") {
                "default" => unsafe {
                    sys::redstartgilt_selected_inverse_entries_ldl(
                        n,
                        starts.as_ptr(),
                        starts.len(),
                        rows.as_ptr(),
                        rows.len(),
                        values.as_ptr(),
                        values.len(),
                        pivots.as_ptr(),
                        pivots.len(),
                        dimension,
                        request_rows.as_ptr(),
                        request_rows.len(),
                        request_columns.as_ptr(),
                        request_columns.len(),
                        result_starts.as_mut_ptr(),
                        result_starts.len(),
                        result_rows.as_mut_ptr(),
                        result_rows.len(),
                        result_values.as_mut_ptr(),
                        result_values.len(),
                        scratch.as_mut_ptr(),
                        scratch.len(),
                    )
                },
                limit => unsafe {
                    sys::redstartgilt_selected_inverse_entries_ldl_with_limit(
                        n,
                        starts.as_ptr(),
                        starts.len(),
                        rows.as_ptr(),
                        rows.len(),
                        values.as_ptr(),
                        values.len(),
                        pivots.as_ptr(),
                        pivots.len(),
                        dimension,
                        request_rows.as_ptr(),
                        request_rows.len(),
                        request_columns.as_ptr(),
                        request_columns.len(),
                        limit.parse().unwrap(),
                        result_starts.as_mut_ptr(),
                        result_starts.len(),
                        result_rows.as_mut_ptr(),
                        result_rows.len(),
                        result_values.as_mut_ptr(),
                        result_values.len(),
                        scratch.as_mut_ptr(),
                        scratch.len(),
                    )
                },
            }
        }
        "diagorig" => {
            let permutation = case.words("perm");
            unsafe {
                sys::redstartgilt_selected_inverse_diag_with_diagnostics(
                    n,
                    starts.as_ptr(),
                    starts.len(),
                    rows.as_ptr(),
                    rows.len(),
                    values.as_ptr(),
                    values.len(),
                    permutation.as_ptr(),
                    permutation.len(),
                    result_starts.as_mut_ptr(),
                    result_starts.len(),
                    result_rows.as_mut_ptr(),
                    result_rows.len(),
                    result_values.as_mut_ptr(),
                    result_values.len(),
                    scratch.as_mut_ptr(),
                    scratch.len(),
                    output.as_mut_ptr(),
                    output.len(),
                )
            }
        }
        "covar" => {
            let (a_row_starts, a_columns) = (case.words("astarts"), case.words("acols"));
            let (b_row_starts, b_columns) = (case.words("bstarts"), case.words("bcols"));
            let (a_weights, b_weights) = (case.values("aweights"), case.values("bweights"));
            let (a_rows, b_rows) = (case.words("arows"), case.words("brows"));
            unsafe {
                sys::redstartgilt_selected_inverse_transformed_covariances(
                    n,
                    starts.as_ptr(),
                    starts.len(),
                    rows.as_ptr(),
                    rows.len(),
                    values.as_ptr(),
                    values.len(),
                    case.number("ancols"),
                    a_row_starts.as_ptr(),
                    a_row_starts.len(),
                    a_columns.as_ptr(),
                    a_columns.len(),
                    a_weights.as_ptr(),
                    a_weights.len(),
                    case.number("bncols"),
                    b_row_starts.as_ptr(),
                    b_row_starts.len(),
                    b_columns.as_ptr(),
                    b_columns.len(),
                    b_weights.as_ptr(),
                    b_weights.len(),
                    a_rows.as_ptr(),
                    a_rows.len(),
                    b_rows.as_ptr(),
                    b_rows.len(),
                    result_starts.as_mut_ptr(),
                    result_starts.len(),
                    result_rows.as_mut_ptr(),
                    result_rows.len(),
                    result_values.as_mut_ptr(),
                    result_values.len(),
                    scratch.as_mut_ptr(),
                    scratch.len(),
                    output.as_mut_ptr(),
                    output.len(),
                )
            }
        }
        _ => {
            let (row_starts, columns) = (case.words("ostarts"), case.words("ocols"));
            let weights = case.values("oweights");
            unsafe {
                sys::redstartgilt_selected_inverse_transformed_diag(
                    n,
                    starts.as_ptr(),
                    starts.len(),
                    rows.as_ptr(),
                    rows.len(),
                    values.as_ptr(),
                    values.len(),
                    case.number("ncols"),
                    row_starts.as_ptr(),
                    row_starts.len(),
                    columns.as_ptr(),
                    columns.len(),
                    weights.as_ptr(),
                    weights.len(),
                    result_starts.as_mut_ptr(),
                    result_starts.len(),
                    result_rows.as_mut_ptr(),
                    result_rows.len(),
                    result_values.as_mut_ptr(),
                    result_values.len(),
                    scratch.as_mut_ptr(),
                    scratch.len(),
                    output.as_mut_ptr(),
                    output.len(),
                )
            }
        }
    };
    put_selected(answer, &reply);
    put_words(answer, "starts", &result_starts);
    put_words(answer, "rows", &result_rows);
    put_values(answer, "values", &result_values);
    put_words(answer, "scratch", &scratch);
    if !["entries", "ldl"].contains(&case.kind) {
        put_values(answer, "out", &output);
    } else if (reply.refusal, reply.status) == (0, sys::REDSTARTGILT_COMPLETE) && case.has("prows") {
        put_value_gets(answer, &result_starts[..n + 1], &result_rows, &result_values, case);
    }
}

/// The search, by lookups in column 0 of a result. It does nothing with rows but compare them, so their order among all
/// rows of the case takes the place of rows too large for a dimension; the value of each entry is its place.
fn searches(answer: &mut String, case: &Case<'_>) {
    let (rows, sought) = (case.words("rows"), case.words("sought"));
    let numbers = rows.iter().chain(&sought).copied().collect::<BTreeSet<_>>();
    let ranks = numbers.iter().zip(0..).map(|(number, rank)| (*number, rank));
    let ranks = ranks.collect::<HashMap<u32, u32>>();
    let rows = rows.iter().map(|row| ranks[row]).collect::<Vec<_>>();
    let mut starts = vec![rows.len() as u32; numbers.len() + 1];
    starts[0] = 0;
    let values = (0..rows.len()).map(|place| place as f64).collect::<Vec<_>>();
    let (mut places, mut looks) = (Vec::new(), Vec::new());
    for row in &sought {
        let reply = unsafe {
            sys::redstartgilt_get_counted(
                starts.as_ptr(),
                starts.len(),
                rows.as_ptr(),
                rows.len(),
                values.as_ptr(),
                values.len(),
                ranks[row] as usize,
                0,
            )
        };
        places.push(match reply.refusal {
            0 => reply.value.to_string(),
            8 => "none".to_string(),
            number => panic!("refusal {number}"),
        });
        looks.push(reply.looks);
    }
    answer.push_str("reply ok\n");
    put_items(answer, "places", &places, |_, _| false, String::clone);
    put_items(answer, "looks", &looks, |_, _| false, usize::to_string);
}

fn diagonals(answer: &mut String, case: &Case<'_>) {
    let (starts, rows, values) = (case.words("starts"), case.words("rows"), case.values("values"));
    let mut output = case.lent_values("lout", 4_608);
    let mut marks = case.lent_marks("lmarks", 4_608);
    let refusal = unsafe {
        sys::redstartgilt_diag(
            starts.as_ptr(),
            starts.len(),
            rows.as_ptr(),
            rows.len(),
            values.as_ptr(),
            values.len(),
            output.as_mut_ptr(),
            output.len(),
            marks.as_mut_ptr(),
            marks.len(),
        )
    };
    put_reply(answer, refusal);
    put_values(answer, "out", &output);
    put_marks(answer, "marks", &marks);
}

fn request_files(answer: &mut String, case: &Case<'_>) {
    let file = case.bytes("file");
    let mut rows = case.lent_words("lrrows", 4_608);
    let mut columns = case.lent_words("lrcols", 4_608);
    let reply = unsafe {
        sys::redstartgilt_read_requests(
            file.as_ptr(),
            file.len(),
            rows.as_mut_ptr(),
            rows.len(),
            columns.as_mut_ptr(),
            columns.len(),
        )
    };
    if put_reply(answer, reply.refusal) {
        let _ = write!(answer, "rdim {}\nrequests {}\n", reply.dimension, reply.requests);
    } else {
        assert_eq!((reply.dimension, reply.requests), (0, 0));
    }
    put_words(answer, "rrows", &rows);
    put_words(answer, "rcols", &columns);
}

fn written_requests(answer: &mut String, case: &Case<'_>) {
    let (rows, columns) = (case.words("rrows"), case.words("rcols"));
    let mut scratch = case.lent_words("lscratch", 67_072);
    let mut file = match case.has("lfile") {
        true => case.bytes("lfile"),
        false => vec![0x77; 65_536],
    };
    let reply = unsafe {
        sys::redstartgilt_write_requests(
            case.number("rdim"),
            rows.as_ptr(),
            rows.len(),
            columns.as_ptr(),
            columns.len(),
            file.as_mut_ptr(),
            file.len(),
            scratch.as_mut_ptr(),
            scratch.len(),
        )
    };
    if put_reply(answer, reply.refusal) {
        let _ = writeln!(answer, "bytes {}", reply.bytes);
    } else {
        assert_eq!(reply.bytes, 0);
    }
    put_words(answer, "scratch", &scratch);
    put_items(answer, "file", &file, u8::eq, |byte| format!("{byte:02x}"));
}

fn patterns(answer: &mut String, case: &Case<'_>) {
    let mut scratch = case.lent_words("lscratch", 33_024);
    let mut pair_rows = case.lent_words("lprows", 33_024);
    let mut pair_columns = case.lent_words("lpcols", 33_024);
    let names = match case.kind {
        "patfactor" => ["starts", "rows", "values", "n"],
        _ => ["ostarts", "ocols", "oweights", "ncols"],
    };
    let (starts, indices, values) = (case.words(names[0]), case.words(names[1]), case.values(names[2]));
    let call = match case.kind {
        "patfactor" => sys::redstartgilt_from_cholesky_factor,
        _ => sys::redstartgilt_from_transformed_operator,
    };
    let reply = unsafe {
        call(
            case.number(names[3]),
            starts.as_ptr(),
            starts.len(),
            indices.as_ptr(),
            indices.len(),
            values.as_ptr(),
            values.len(),
            scratch.as_mut_ptr(),
            scratch.len(),
            pair_rows.as_mut_ptr(),
            pair_rows.len(),
            pair_columns.as_mut_ptr(),
            pair_columns.len(),
        )
    };
    if put_reply(answer, reply.refusal) {
        let _ = writeln!(answer, "pairs {}", reply.pairs);
    } else {
        assert_eq!(reply.pairs, 0);
    }
    put_words(answer, "scratch", &scratch);
    put_words(answer, "prows", &pair_rows);
    put_words(answer, "pcols", &pair_columns);
}

fn chains(answer: &mut String, case: &Case<'_>) {
    let (starts, rows, values) = (case.words("starts"), case.words("rows"), case.values("values"));
    let (request_rows, request_columns) = (case.words("rrows"), case.words("rcols"));
    let mut scratch = case.lent_words("lscratch", 67_072);
    let mut chain_rows = case.lent_words("lcrows", 33_024);
    let mut chain_columns = case.lent_words("lccols", 33_024);
    let reply = unsafe {
        sys::redstartgilt_dependency_chain(
            case.number("n"),
            starts.as_ptr(),
            starts.len(),
            rows.as_ptr(),
            rows.len(),
            values.as_ptr(),
            values.len(),
            case.number("rdim"),
            request_rows.as_ptr(),
            request_rows.len(),
            request_columns.as_ptr(),
            request_columns.len(),
            case.number("prow"),
            case.number("pcol"),
            scratch.as_mut_ptr(),
            scratch.len(),
            chain_rows.as_mut_ptr(),
            chain_rows.len(),
            chain_columns.as_mut_ptr(),
            chain_columns.len(),
        )
    };
    if put_reply(answer, reply.refusal) {
        let _ = match reply.pairs {
            0 => writeln!(answer, "chain none"),
            pairs => writeln!(answer, "chain {pairs}"),
        };
    } else {
        assert_eq!(reply.pairs, 0);
    }
    put_words(answer, "scratch", &scratch);
    put_words(answer, "crows", &chain_rows);
    put_words(answer, "ccols", &chain_columns);
}

fn permutations(answer: &mut String, case: &Case<'_>) {
    let permutation = case.words("perm");
    match case.kind {
        "permvalidate" => {
            let inverse = case.words("inv");
            let refusal = unsafe {
                sys::redstartgilt_validate(permutation.as_ptr(), permutation.len(), inverse.as_ptr(), inverse.len())
            };
            put_reply(answer, refusal);
        }
        "permfrom" => {
            let mut inverse = case.lent_words("linv", 4_608);
            let refusal = unsafe {
                sys::redstartgilt_from_orig_to_perm(
                    permutation.as_ptr(),
                    permutation.len(),
                    inverse.as_mut_ptr(),
                    inverse.len(),
                )
            };
            put_reply(answer, refusal);
            put_words(answer, "inv", &inverse);
        }
        "permmarked" => {
            let (input, marks) = (case.values("input"), case.marks("marks"));
            let mut output = case.lent_values("lout", 4_608);
            let mut output_marks = case.lent_marks("lmarks", 4_608);
            let refusal = unsafe {
                sys::redstartgilt_permute_factor_to_original_marked(
                    permutation.as_ptr(),
                    permutation.len(),
                    input.as_ptr(),
                    input.len(),
                    marks.as_ptr(),
                    marks.len(),
                    output.as_mut_ptr(),
                    output.len(),
                    output_marks.as_mut_ptr(),
                    output_marks.len(),
                )
            };
            put_reply(answer, refusal);
            put_values(answer, "out", &output);
            put_marks(answer, "marks", &output_marks);
        }
        _ => {
            let input = case.values("input");
            let mut output = case.lent_values("lout", 4_608);
            let refusal = unsafe {
                sys::redstartgilt_permute_factor_to_original(
                    permutation.as_ptr(),
                    permutation.len(),
                    input.as_ptr(),
                    input.len(),
                    output.as_mut_ptr(),
                    output.len(),
                )
            };
            put_reply(answer, refusal);
            put_values(answer, "out", &output);
        }
    }
}

fn floors(answer: &mut String, case: &Case<'_>) {
    let input = case.values("input");
    let mut output = case.lent_values("lout", 4_608);
    let reply = match case.word("floor") {
        "zero" => unsafe {
            sys::redstartgilt_stabilize_variances_zero(input.as_ptr(), input.len(), output.as_mut_ptr(), output.len())
        },
        _ => unsafe {
            sys::redstartgilt_stabilize_variances_positive_mean(
                input.as_ptr(),
                input.len(),
                value(case.word("scale")),
                output.as_mut_ptr(),
                output.len(),
            )
        },
    };
    if put_reply(answer, reply.refusal) {
        let _ = write!(answer, "floor {}\nhits {}\n", shown(reply.floor), reply.floor_hits);
    }
    put_values(answer, "out", &output);
}

fn least(answer: &mut String, case: &Case<'_>) {
    let input = case.values("input");
    let reply = unsafe { sys::redstartgilt_count_and_least(input.as_ptr(), input.len()) };
    let _ = write!(
        answer,
        "reply ok\nnegative {}\nleast {}\n",
        reply.num_negative,
        shown(reply.min_value)
    );
}

fn answer(case: &Case<'_>) -> String {
    let mut answer = format!("{}\n", case.head);
    match case.kind {
        "entries" | "ldl" | "diagorig" | "opvar" | "covar" => selected(&mut answer, case),
        "get" => {
            answer.push_str("reply ok\n");
            let (starts, rows, values) = (case.words("starts"), case.words("rows"), case.values("values"));
            put_value_gets(&mut answer, &starts, &rows, &values, case);
        }
        "wentries" => wholes(&mut answer, case),
        "wget" => {
            answer.push_str("reply ok\n");
            let (starts, rows, values) = (case.words("starts"), case.words("rows"), case.wholes("wvalues"));
            put_whole_gets(&mut answer, &starts, &rows, &values, case);
        }
        "bounds" => bounds(&mut answer, case),
        "track" => tracks(&mut answer, case),
        "search" => searches(&mut answer, case),
        "diag" => diagonals(&mut answer, case),
        "mmread" => request_files(&mut answer, case),
        "mmwrite" => written_requests(&mut answer, case),
        "chain" => chains(&mut answer, case),
        "patfactor" | "patoperator" => patterns(&mut answer, case),
        "permvalidate" | "permfrom" | "permapply" | "permmarked" => permutations(&mut answer, case),
        "floor" => floors(&mut answer, case),
        "least" => least(&mut answer, case),
        kind => panic!("kind {kind}"),
    }
    answer.push_str("end\n");
    answer
}

/// The lines of each case, from `case` to `end`.
fn cases(text: &str) -> Vec<Vec<&str>> {
    let mut cases = Vec::new();
    for line in text.lines() {
        if line.starts_with("case ") {
            cases.push(Vec::new());
        }
        cases.last_mut().unwrap().push(line);
    }
    assert!(cases.iter().all(|case| case.last() == Some(&"end")));
    cases
}

fn text(name: &str) -> String {
    let file = PathBuf::from(env!("CARGO_MANIFEST_DIR"))
        .join("../../crates/replay")
        .join(name);
    std::fs::read_to_string(&file).unwrap_or_else(|error| panic!("{}: {error}", file.display()))
}

#[test]
fn every_answer_is_that_of_the_proved_program() {
    let (stdin, stdout) = (text("stdin"), text("stdout"));
    let (cases, expected) = (cases(&stdin), cases(&stdout));
    assert_eq!(cases.len(), expected.len());
    assert!(cases.len() >= 4_033);
    for (lines, expected) in cases.iter().zip(expected) {
        let fields = lines[1..lines.len() - 1].iter().map(|line| {
            let mut words = line.split_whitespace();
            (words.next().unwrap(), words.collect())
        });
        let case = Case {
            head: lines[0],
            kind: lines[0].split_whitespace().nth(2).unwrap(),
            fields: fields.collect(),
        };
        let found = answer(&case);
        let found = found.lines().collect::<Vec<_>>();
        for (found, expected) in found.iter().zip(&expected) {
            assert_eq!(found, expected, "{}", case.head);
        }
        assert_eq!(found.len(), expected.len(), "{}", case.head);
    }
}
