//! Cholesky factors of square grids.

use std::collections::BTreeMap;

pub struct Grid {
    pub starts: Vec<u32>,
    pub rows: Vec<u32>,
    pub values: Vec<f64>,
    /// The place of each cell.
    pub orig_to_perm: Vec<u32>,
}

/// The factor of the five-point Laplacian of a grid with 0.25 more on its diagonal.
pub fn grid(side: usize, nested: bool) -> Grid {
    let n = side * side;
    let mut order = Vec::new();
    if nested {
        dissect([0, side], [0, side], side, &mut order);
    } else {
        order.extend(0..n);
    }
    let mut place = vec![0; n];
    order.iter().enumerate().for_each(|(at, &cell)| place[cell] = at);

    // lower columns of the matrix, which become those of the factor from left to right
    let mut columns = vec![BTreeMap::<usize, f64>::new(); n];
    for cell in 0..n {
        *columns[place[cell]].entry(place[cell]).or_default() += 0.25;
        let right = (cell % side + 1 < side).then_some(cell + 1);
        let down = (cell + side < n).then_some(cell + side);
        for other in right.into_iter().chain(down) {
            let (a, b) = (place[cell], place[other]);
            columns[a.min(b)].insert(a.max(b), -1.0);
            *columns[a].entry(a).or_default() += 1.0;
            *columns[b].entry(b).or_default() += 1.0;
        }
    }
    let mut grid = Grid {
        starts: vec![0],
        rows: Vec::new(),
        values: Vec::new(),
        orig_to_perm: place.iter().map(|&p| p as u32).collect(),
    };
    for j in 0..n {
        let diagonal = columns[j][&j].sqrt();
        let below: Vec<(usize, f64)> = columns[j].range(j + 1..).map(|(&r, &v)| (r, v / diagonal)).collect();
        for (at, &(column, l)) in below.iter().enumerate() {
            for &(row, m) in &below[at..] {
                *columns[column].entry(row).or_default() -= l * m;
            }
        }
        for (row, value) in std::iter::once((j, diagonal)).chain(below) {
            grid.rows.push(row as u32);
            grid.values.push(value);
        }
        grid.starts.push(grid.rows.len() as u32);
    }
    grid
}

/// Nested dissection: both halves, then the line between them; parts of at most 9 cells as they are.
fn dissect(x: [usize; 2], y: [usize; 2], side: usize, order: &mut Vec<usize>) {
    let (wide, high) = (x[1] - x[0], y[1] - y[0]);
    if wide * high <= 9 {
        order.extend((y[0]..y[1]).flat_map(|y| (x[0]..x[1]).map(move |x| y * side + x)));
    } else if wide >= high {
        let middle = x[0] + wide / 2;
        dissect([x[0], middle], y, side, order);
        dissect([middle + 1, x[1]], y, side, order);
        dissect_line(y, |y| y * side + middle, order);
    } else {
        let middle = y[0] + high / 2;
        dissect(x, [y[0], middle], side, order);
        dissect(x, [middle + 1, y[1]], side, order);
        dissect_line(x, |x| middle * side + x, order);
    }
}

fn dissect_line(range: [usize; 2], cell: impl Fn(usize) -> usize, order: &mut Vec<usize>) {
    order.extend((range[0]..range[1]).map(cell));
}
