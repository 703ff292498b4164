//! Twenty operators on two series: one pass over both files, from one boundary to the next.

use crate::series::{Cell, Out, Row, Rows};

const END: i64 = 8_000_000;
/// A boundary that never comes.
pub const NEVER: i64 = i64::MAX;

/// Where a series stands: the row that isn't over yet.
pub struct Cursor {
    rows: Rows,
    row: Option<Row>,
}

impl Cursor {
    pub fn new(mut rows: Rows) -> Cursor {
        let row = rows.next();
        Cursor { rows, row }
    }

    /// What the series has at the tick after a position, and the next boundary above the position. Positions rise.
    pub fn at(&mut self, position: i64) -> (Cell, i64) {
        while let Some(row) = self.row {
            if position < row.start {
                return (None, row.start);
            }
            if position < row.end {
                return (Some(row.value), row.end);
            }
            self.row = self.rows.next();
        }
        (None, NEVER)
    }
}

/// Reading and printing alone.
pub fn copy(x: Rows, out: &mut Out) {
    let mut x = Cursor::new(x);
    let mut start = 0;
    while start < END {
        let (cell, end) = x.at(start);
        let end = end.min(END);
        out.put(start, end, cell);
        start = end;
    }
}

pub fn print(x: Rows, y: Rows, out: &mut Out) {
    let (mut x, mut y) = (Cursor::new(x), Cursor::new(y));
    let mut start = 0;
    while start < END {
        let (x, x_end) = x.at(start);
        let (y, y_end) = y.at(start);
        let end = x_end.min(y_end).min(END);
        out.put(start, end, joined(x, y));
        start = end;
    }
}

fn joined(x: Cell, y: Cell) -> Cell {
    if let (Some(x), Some(y)) = (x, y)
        && x == y
    {
        return None;
    }
    let Some(x) = x else {
        return y?.checked_mul(2)?.checked_sub(1);
    };
    let doubled = y.unwrap_or(5).checked_mul(2)?;
    let first = x.checked_mul(3)?.checked_sub(doubled)?.checked_add(1)? / 7;
    let second = x.checked_sub(y.unwrap_or(x))?.checked_mul(8)? % 13;
    first.checked_add(x % 11)?.checked_sub(second)
}
