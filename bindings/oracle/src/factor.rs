//! Factors as compressed columns, and the Cholesky factor of a sparse matrix.

/// A column's rows and values, rows ascending.
pub type Column = Vec<(usize, f64)>;

#[derive(Clone)]
pub struct Factor {
    pub n: usize,
    pub starts: Vec<usize>,
    pub rows: Vec<usize>,
    pub values: Vec<f64>,
}

impl Factor {
    pub fn from_columns(columns: &[Column]) -> Self {
        let mut factor = Factor { n: columns.len(), starts: vec![0], rows: Vec::new(), values: Vec::new() };
        for column in columns {
            for &(row, value) in column {
                factor.rows.push(row);
                factor.values.push(value);
            }
            factor.starts.push(factor.rows.len());
        }
        factor
    }

    pub fn column(&self, c: usize) -> impl Iterator<Item = (usize, f64)> + '_ {
        (self.starts[c]..self.starts[c + 1]).map(|p| (self.rows[p], self.values[p]))
    }
}

/// The Cholesky factor of a symmetric matrix, given by the columns of its lower triangle, each with its diagonal. The
/// factor's pattern is the symbolic fill; nothing is dropped.
pub fn cholesky(lower: &[Column]) -> Factor {
    let n = lower.len();
    let mut columns: Vec<Column> = Vec::with_capacity(n);
    // For each row, the columns before it that have it, and at which place.
    let mut reaching: Vec<Vec<(usize, usize)>> = vec![Vec::new(); n];
    let mut sums: Vec<Option<f64>> = vec![None; n];
    for j in 0..n {
        let mut pattern = Vec::new();
        for &(row, value) in &lower[j] {
            sums[row] = Some(value);
            pattern.push(row);
        }
        for &(k, place) in &reaching[j] {
            let l = columns[k][place].1;
            for &(row, value) in &columns[k][place..] {
                let sum = sums[row].unwrap_or_else(|| {
                    pattern.push(row);
                    0.0
                });
                sums[row] = Some(sum - l * value);
            }
        }
        pattern.sort_unstable();
        let mut sum_of = |row: usize| sums[row].take().expect("of the pattern");
        let diagonal = sum_of(j).sqrt();
        assert!(pattern[0] == j && diagonal > 0.0);
        let mut column = vec![(j, diagonal)];
        for (place, &row) in pattern.iter().enumerate().skip(1) {
            column.push((row, sum_of(row) / diagonal));
            reaching[row].push((j, place));
        }
        columns.push(column);
    }
    Factor::from_columns(&columns)
}
