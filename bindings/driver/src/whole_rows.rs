//! The whole-number engine in `benchmark`: its time beside that of the float engine on the same factor and requests, and
//! beside that of the Rust's functions, which compute in floats.
//!
//! Factors are those of whole_factors.rs, whose numbers stay within 2^53: grids of 1 and -1, and full blocks, with small
//! numbers, and with a last row that makes entries past 2^27. All are timed in turn, round by round.

use crate::benchmark::{answer, cleared_ms, lent, median, median_ms, rust_ms, ROUNDS};
use crate::call::Call;
use crate::function::Function;
use crate::list::List;
use crate::random::Random;
use crate::subjects::RequestLists;
use crate::text::Block;
use crate::whole_factors::{as_floats, dense_block, grid_of_signs};
use std::io;
use std::path::Path;

/// What a call may take of the float engine's time, on grids and on full blocks, and of the Rust's.
const GRID_TARGET: f64 = 1.5;
const DENSE_TARGET: f64 = 4.0;
const RUST_TARGET: f64 = 0.2;

/// The last row of a full block is so many times what it is in one of small numbers.
const SCALE: i64 = 1 << 14;

struct WholeRow {
    name: String,
    call: Call,
    target: f64,
}

/// Every cell with itself, with those beside it, and these with each other.
fn stencils(side: usize, places: &[u32]) -> Vec<(u32, u32)> {
    let mut pairs = Vec::new();
    for cell in 0..side * side {
        let (x, y) = (cell % side, cell / side);
        let mut near = vec![cell];
        near.extend((x > 0).then(|| cell - 1));
        near.extend((x + 1 < side).then_some(cell + 1));
        near.extend((y > 0).then(|| cell - side));
        near.extend((y + 1 < side).then_some(cell + side));
        pairs.extend(near.iter().flat_map(|&a| near.iter().map(move |&b| (places[a], places[b]))));
    }
    pairs
}

fn requests(n: usize, pairs: &[(u32, u32)]) -> RequestLists {
    RequestLists {
        dimension: n,
        rows: List::made(pairs.len(), |at| pairs[at].0),
        columns: List::made(pairs.len(), |at| pairs[at].1),
    }
}

/// The rows; all calls have the default limit.
fn whole_rows() -> Vec<WholeRow> {
    let mut rows = Vec::new();
    let random = &mut Random::new(1);
    for side in [16, 32, 45, 64] {
        for nested in [false, true] {
            let (whole_factor, places) = grid_of_signs(side, nested, random);
            let n = whole_factor.n;
            let asked = [
                ("diag", (0..n as u32).map(|i| (i, i)).collect()),
                ("00", vec![(0, 0)]),
                ("stencils", stencils(side, &places)),
            ];
            for (what, pairs) in asked {
                let order = if nested { "nd" } else { "natural" };
                rows.push(WholeRow {
                    name: format!("{side}x{side}-{order}-{what}"),
                    call: Call {
                        function: Function::WholeEntries,
                        whole_factor: whole_factor.clone(),
                        requests: requests(n, &pairs),
                        ..Call::default()
                    },
                    target: GRID_TARGET,
                });
            }
        }
    }
    for n in [64, 128, 256, 512] {
        for scale in [1, SCALE] {
            rows.push(WholeRow {
                name: format!("dense-{n}{}", if scale > 1 { "-large" } else { "" }),
                call: Call {
                    function: Function::WholeEntries,
                    whole_factor: dense_block(n, scale, random),
                    requests: requests(n, &[(0, 0)]),
                    ..Call::default()
                },
                target: DENSE_TARGET,
            });
        }
    }
    rows
}

/// The call of the float engine for the same.
fn float_call(call: &Call) -> Call {
    Call {
        function: Function::Entries,
        factor: as_floats(&call.whole_factor),
        requests: call.requests.clone(),
        ..Call::default()
    }
}

pub fn rows_of_wholes(folder: &Path, runs: usize) -> io::Result<()> {
    println!(
        "\n| whole numbers | Rust's route | pairs | whole | clearing | floats | Rust | whole / floats | target | | \
         whole / Rust | target | |"
    );
    println!("|---|---|---|---|---|---|---|---|---|---|---|---|---|");
    for WholeRow { name, call, target } in whole_rows() {
        let mut case = Block::new(&name, "entries");
        let floats = float_call(&call);
        case.put_factor(&floats.factor);
        case.put("rdim", call.requests.dimension);
        case.put_numbers("rrows", &call.requests.rows);
        case.put_numbers("rcols", &call.requests.columns);
        case.put("limit", "default");
        let answer = answer(folder, &case)?;
        if !lent(call.clone()).make().complete() {
            return Err(io::Error::other(format!("{name}: a number passes 2^53")));
        }
        // times by round: whole numbers, clearing, floats, the Rust's
        let mut times = [(); 4].map(|()| Vec::new());
        for _ in 0..ROUNDS {
            times[3].push(rust_ms(folder, &case, runs)?);
            let mut whole = lent(call.clone());
            times[0].push(median_ms(&mut whole, runs));
            times[1].push(cleared_ms(&mut whole, runs));
            times[2].push(median_ms(&mut lent(floats.clone()), runs));
        }
        let part = |of: usize| median(times[0].iter().zip(&times[of]).map(|(time, other)| time / other).collect());
        let (beside_floats, beside_rust) = (part(2), part(3));
        let [whole, clearing, floats, rust] = times.map(median);
        let met = |ratio: f64, target: f64| if ratio <= target { "met" } else { "missed" };
        println!(
            "| {name} | {} | {} | {whole:.3} | {clearing:.3} | {floats:.3} | {rust:.3} | {beside_floats:.2} | {target} | {} \
             | {beside_rust:.3} | {RUST_TARGET} | {} |",
            answer.field("route"),
            answer.number("closure"),
            met(beside_floats, target),
            met(beside_rust, RUST_TARGET)
        );
    }
    Ok(())
}

/// The call of a row, for a profiler: `whole:ROW` in whole numbers, `float:ROW` in floats.
pub fn profiled(name: &str) -> Option<Call> {
    let (engine, row) = name.split_once(':')?;
    let call = whole_rows().into_iter().find(|known| known.name == row)?.call;
    match engine {
        "whole" => Some(call),
        "float" => Some(float_call(&call)),
        _ => None,
    }
}
