//! The average of ten ticks on a grid of ten, where it is above a limit: one pass over both files, from one grid point to the next.

use crate::pointwise::{Cursor, NEVER};
use crate::series::{Cell, Out, Row, Rows};

const PERIOD: i64 = 10;
const END: i64 = 8_000_000;

/// The rows that aren't over yet, from `row` on.
struct Readings {
    rows: Rows,
    row: Option<Row>,
}

impl Readings {
    /// The first boundary above a position. Positions rise.
    fn boundary(&mut self, position: i64) -> i64 {
        while self.row.is_some_and(|row| row.end <= position) {
            self.row = self.rows.next();
        }
        self.row.map_or(NEVER, |row| if row.start > position { row.start } else { row.end })
    }

    /// The average of the rows that meet the ticks up to `end`. One that goes on after it stays.
    fn average(&mut self, end: i64) -> Cell {
        let (mut total, mut count) = (0_i128, 0);
        while let Some(row) = self.row.filter(|row| row.start < end) {
            total += row.value as i128;
            count += 1;
            if row.end > end {
                break;
            }
            self.row = self.rows.next();
        }
        if count == 0 { None } else { Some(quotient(total, count)) }
    }
}

/// The average of numbers fits where they do.
pub fn quotient(total: i128, count: i64) -> i64 {
    match i64::try_from(total) {
        Ok(total) => total / count,
        Err(_) => (total / count as i128) as i64,
    }
}

pub fn print(mut rows: Rows, limit: Rows, out: &mut Out) {
    let row = rows.next();
    let (mut readings, mut limit) = (Readings { rows, row }, Cursor::new(limit));
    let mut start = 0;
    while start < END {
        let point = start + PERIOD;
        let change = readings.boundary(start);
        let average = readings.average(point);
        let (limit, limit_end) = limit.at(point - 1);
        let end = (change.min(limit_end) / PERIOD * PERIOD).clamp(point, END);
        out.put(start, end, above(average, limit));
        start = end;
    }
}

fn above(average: Cell, limit: Cell) -> Cell {
    let (average, limit) = (average?, limit?);
    if average > limit { average.checked_sub(limit) } else { None }
}
