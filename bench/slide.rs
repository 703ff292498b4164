//! A window that moves with each tick: rows come in at one end and leave at the other.

use crate::series::{Cell, Out, Row, Rows};
use std::collections::VecDeque;

const WIDTH: i64 = 4_000_000;
const END: i64 = 8_000_000;
const NEVER: i64 = i64::MAX;

/// What is kept of the numbers in a window.
pub trait Reducer {
    fn enter(&mut self, value: i64);
    fn leave(&mut self, value: i64);
    fn result(&self) -> Cell;
}

#[derive(Default)]
pub struct Sum {
    pub total: i128,
    pub count: i64,
}

impl Reducer for Sum {
    fn enter(&mut self, value: i64) {
        self.total += value as i128;
        self.count += 1;
    }

    fn leave(&mut self, value: i64) {
        self.total -= value as i128;
        self.count -= 1;
    }

    fn result(&self) -> Cell {
        if self.count == 0 { None } else { self.total.try_into().ok() }
    }
}

/// The members that no later one exceeds, so that the first is the greatest of the window.
#[derive(Default)]
pub struct Maximum {
    kept: VecDeque<i64>,
}

impl Reducer for Maximum {
    fn enter(&mut self, value: i64) {
        while self.kept.back().is_some_and(|&last| last < value) {
            self.kept.pop_back();
        }
        self.kept.push_back(value);
    }

    fn leave(&mut self, value: i64) {
        if self.kept.front() == Some(&value) {
            self.kept.pop_front();
        }
    }

    fn result(&self) -> Cell {
        self.kept.front().copied()
    }
}

/// The rows in the window at the tick after a position.
struct Window<R> {
    rows: Rows,
    coming: Option<Row>,
    inside: VecDeque<Row>,
    last_end: i64,
    reducer: R,
}

impl<R: Reducer> Window<R> {
    fn move_to(&mut self, position: i64) {
        while let Some(row) = self.coming.filter(|row| row.start <= position) {
            self.reducer.enter(row.value);
            self.last_end = row.end;
            self.inside.push_back(row);
            self.coming = self.rows.next();
        }
        while let Some(row) = self.inside.front().filter(|row| row.end + WIDTH - 1 <= position) {
            self.reducer.leave(row.value);
            self.inside.pop_front();
        }
    }

    /// The next boundary above a position: where a row begins or ends at the window's last tick, or at its first.
    fn boundary(&self, position: i64) -> i64 {
        let last = if self.last_end > position { self.last_end } else { self.coming.map_or(NEVER, |row| row.start) };
        let first = self.inside.front().map_or(NEVER, |row| {
            let begins = row.start + WIDTH - 1;
            if begins > position { begins } else { row.end + WIDTH - 1 }
        });
        last.min(first)
    }
}

pub fn print<R: Reducer>(mut rows: Rows, reducer: R, out: &mut Out) {
    let coming = rows.next();
    let mut window = Window { rows, coming, inside: VecDeque::new(), last_end: i64::MIN, reducer };
    let mut start = 0;
    while start < END {
        window.move_to(start);
        let end = window.boundary(start).min(END);
        out.put(start, end, window.reducer.result());
        start = end;
    }
}
