//! Cells as a grid.

use std::fmt;

/// A grid whose cells are numbered row by row from the top left, from 0.
#[derive(Debug, Clone, Copy, PartialEq, Eq)]
pub struct Grid {
    pub width: usize,
    pub height: usize,
}

impl Grid {
    /// A grid from words such as 24x16.
    pub fn read(text: &str) -> Option<Grid> {
        let (width, height) = text.split_once(['x', 'X'])?;
        let grid = Grid {
            width: width.parse().ok()?,
            height: height.parse().ok()?,
        };
        (grid.cells()? > 0).then_some(grid)
    }

    /// How many cells there are, if that is a number of the machine.
    pub fn cells(self) -> Option<usize> {
        self.width.checked_mul(self.height)
    }

    /// Column and row of a cell.
    pub fn place(self, cell: usize) -> (usize, usize) {
        (cell % self.width, cell / self.width)
    }
}

impl fmt::Display for Grid {
    fn fmt(&self, formatter: &mut fmt::Formatter<'_>) -> fmt::Result {
        write!(formatter, "{}x{}", self.width, self.height)
    }
}

#[cfg(test)]
mod tests {
    use super::Grid;

    #[test]
    fn reads_two_numbers() {
        let grid = Grid::read("24x16").unwrap();
        assert_eq!((grid.width, grid.height), (24, 16));
        assert_eq!(grid.place(25), (1, 1));
        for text in [
            "",
            "24",
            "x",
            "24x",
            "0x3",
            "3x0",
            "-1x2",
            "2x2x2",
            "99999999999x99999999999",
        ] {
            assert_eq!(Grid::read(text), None, "{text}");
        }
    }
}
