//! Six definitions with shifts, windows and a join: each is a list of snapshots, made by one pass over the lists before it.

use crate::grid::quotient;
use crate::series::{Cell, Out, Rows};
use crate::slide::{Maximum, Reducer, Sum};

const END: i64 = 8_000_000;
/// The end of the last snapshot of a list, which is as good as none, and what is above the end of every other one.
const FAR: i64 = 4_500_000_000_000_000_000;
const LAST: i64 = 4_400_000_000_000_000_000;

/// A snapshot, which begins where the one before it ends. The first of a list begins before all rows.
struct Snap {
    end: i64,
    cell: Cell,
}

/// Rows as snapshots: each gap is one without a value.
fn filled(rows: Rows) -> Vec<Snap> {
    let (mut snaps, mut last) = (Vec::new(), -FAR);
    for row in rows {
        if row.start > last {
            snaps.push(Snap { end: row.start, cell: None });
        }
        snaps.push(Snap { end: row.end, cell: Some(row.value) });
        last = row.end;
    }
    snaps.push(Snap { end: FAR, cell: None });
    snaps
}

/// A list as it was so many ticks before, and a place in it.
struct Reading<'a> {
    snaps: &'a [Snap],
    at: usize,
    back: i64,
}

fn read(snaps: &[Snap], back: i64) -> Reading<'_> {
    Reading { snaps, at: 0, back }
}

impl Reading<'_> {
    fn end(&self) -> i64 {
        self.snaps[self.at].end + self.back
    }

    fn cell(&self) -> Cell {
        self.snaps[self.at].cell
    }

    fn move_to(&mut self, position: i64) {
        while self.end() <= position {
            self.at += 1;
        }
    }
}

/// Goes from one boundary of the readings to the next, and hands on what they have between.
fn merge<const N: usize>(mut readings: [Reading<'_>; N], mut start: i64, last: i64, mut put: impl FnMut(i64, i64, [Cell; N])) {
    while start < last {
        readings.iter_mut().for_each(|reading| reading.move_to(start));
        let end = readings.iter().map(Reading::end).min().unwrap_or(FAR);
        put(start, end, readings.each_ref().map(Reading::cell));
        start = end;
    }
}

fn combined<const N: usize>(readings: [Reading<'_>; N], rule: impl Fn([Cell; N]) -> Cell) -> Vec<Snap> {
    let mut snaps = Vec::new();
    merge(readings, -FAR, LAST, |_, end, cells| snaps.push(Snap { end, cell: rule(cells) }));
    snaps
}

/// What a reducer has of the snapshots with a tick among the last so many.
fn slide(snaps: &[Snap], width: i64, mut reducer: impl Reducer) -> Vec<Snap> {
    let (mut first, mut last) = (0, 0);
    let mut results = Vec::new();
    loop {
        let leaves = snaps[first].end + width - 1;
        let end = snaps[last].end.min(leaves);
        results.push(Snap { end, cell: reducer.result() });
        if end > LAST {
            return results;
        }
        if snaps[last].end == end {
            last += 1;
            snaps[last].cell.into_iter().for_each(|value| reducer.enter(value));
        }
        if leaves == end {
            snaps[first].cell.into_iter().for_each(|value| reducer.leave(value));
            first += 1;
        }
    }
}

/// A list on a grid: at each tick what it is at the next grid point.
fn every(period: i64, snaps: &[Snap]) -> Vec<Snap> {
    let mut reading = read(snaps, 0);
    let mut results = Vec::new();
    let mut start = -FAR;
    while start < LAST {
        reading.move_to(start + period - 1);
        let end = reading.end().div_euclid(period) * period;
        results.push(Snap { end, cell: reading.cell() });
        start = end;
    }
    results
}

#[derive(Default)]
struct Average(Sum);

impl Reducer for Average {
    fn enter(&mut self, value: i64) {
        self.0.enter(value);
    }

    fn leave(&mut self, value: i64) {
        self.0.leave(value);
    }

    fn result(&self) -> Cell {
        if self.0.count == 0 { None } else { Some(quotient(self.0.total, self.0.count)) }
    }
}

/// The greatest less the least. Complements have the opposite order.
#[derive(Default)]
struct Swing {
    greatest: Maximum,
    complement: Maximum,
}

impl Reducer for Swing {
    fn enter(&mut self, value: i64) {
        self.greatest.enter(value);
        self.complement.enter(!value);
    }

    fn leave(&mut self, value: i64) {
        self.greatest.leave(value);
        self.complement.leave(!value);
    }

    fn result(&self) -> Cell {
        self.greatest.result()?.checked_sub(!self.complement.result()?)
    }
}

pub fn print(x: Rows, y: Rows, out: &mut Out) {
    let (x, y) = (filled(x), filled(y));
    let change = combined([read(&x, 0), read(&x, 5)], |[now, before]| now?.checked_sub(before?));
    let level = every(10, &slide(&y, 60, Average::default()));
    let swing = every(10, &slide(&change, 40, Swing::default()));
    let parts = [read(&change, 0), read(&level, 0), read(&swing, 3), read(&level, 10), read(&swing, 0)];
    let joined = combined(parts, |[change, level, swing_before, level_before, swing]| {
        if change? > 0 { level?.checked_add(swing_before?) } else { swing?.checked_sub(level_before?) }
    });
    let total = every(10, &slide(&joined, 30, Sum::default()));
    merge([read(&total, 0), read(&x, 0)], 0, END, |start, end, [total, x]| out.put(start, end.min(END), emitted(total, x)));
}

fn emitted(total: Cell, x: Cell) -> Cell {
    let (total, x) = (total?, x?);
    if total > 0 { total.checked_sub(x) } else { None }
}
