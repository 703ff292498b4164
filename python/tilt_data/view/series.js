// The rows of a series: blocks that are unpacked when they are needed, and levels of buckets above them.

const BLOCK_BITS = 16, GROUP = 8, KEPT_BLOCKS = 64;
// What goes beyond the view is cut this far from it, in pixels: a canvas is inexact far outside.
const EDGE = 16;

class Series {
  constructor(fields, number, lo, changed) {
    this.number = number;
    this.count = fields.rows;
    this.base = BigInt(fields.base);
    this.lo = lo;
    this.changed = changed;
    this.blocks = fields.blocks.map(([rows, start, value]) => ({ rows, start: BigInt(start), value: BigInt(value), data: null, asked: null }));
    this.kept = [];
    this.levels = [];
    // Starts and ends of buckets are numbers: in a stretch of more than 2^53 ticks they are off by a little.
    this.slack = 0;
  }

  async open() {
    if (!this.count) return;
    const columns = await columnsIn(`summary-${this.number}`, 7);
    const { start, value } = this.blocks[0];
    const level = levelOf(columns, Number(start - this.lo), Number(value - this.base), start - this.lo, value - this.base);
    this.slack = Math.max(Math.abs(level.start[0]), Math.abs(level.end[level.end.length - 1])) * 2 ** -51;
    for (let next = level; ; next = groupedLevel(next)) {
      this.levels.push(next);
      if (next.start.length <= GROUP) break;
    }
  }

  // The block of a number if it is unpacked; else it is unpacked, and the page is drawn again.
  block(number) {
    const block = this.blocks[number];
    if (block.data) return block.data;
    if (!block.asked) block.asked = this.unpack(block, number);
    return null;
  }

  async unpack(block, number) {
    const [gaps, lengths, changes] = await columnsIn(`rows-${this.number}-${number}`, 3);
    const [starts, ends] = timesOf(block.start, gaps, lengths);
    block.data = { starts, ends, values: valuesOf(block.value, changes) };
    block.asked = null;
    this.kept.push(block);
    if (this.kept.length > KEPT_BLOCKS) this.kept.shift().data = null;
    this.changed();
    return block.data;
  }

  // The numbers of the block and the row that start at a place or last before it; null if there is none.
  async placeAt(tick) {
    const number = lastWhere(this.blocks.length, (at) => this.blocks[at].start <= tick);
    if (number < 0) return null;
    const block = this.blocks[number];
    const data = block.data || (await (block.asked || (block.asked = this.unpack(block, number))));
    return [number, lastWhere(block.rows, (at) => data.starts.at(at) <= tick)];
  }

  // The row of a block by its number, which may be that of a neighbour: -1 for the last of the block before.
  async row([number, at]) {
    if (at < 0) return number === 0 ? null : this.row([number - 1, this.blocks[number - 1].rows - 1]);
    if (at >= this.blocks[number].rows) return number + 1 === this.blocks.length ? null : this.row([number + 1, at - this.blocks[number].rows]);
    const block = this.blocks[number];
    const data = block.data || (await (block.asked || (block.asked = this.unpack(block, number))));
    return { start: data.starts.at(at), end: data.ends.at(at), value: data.values.at(at) };
  }

  // Hands to `take` what is drawn of the series in a view: extents in pixels from its left, first, least, greatest and last offsets from the
  // base, and how many rows that are. What is wider than a pixel is a row, or a bucket whose rows aren't unpacked yet.
  walk(view, take) {
    if (this.levels.length) {
      const top = this.levels.length - 1;
      const from = Number(view.anchor - this.lo) + view.lo;
      for (let at = 0; at < this.levels[top].start.length; at++) this.walkBucket(view, from, top, at, take);
    }
  }

  walkBucket(view, from, depth, at, take) {
    const level = this.levels[depth];
    const x0 = (level.start[at] - from) * view.scale, x1 = (level.end[at] - from) * view.scale, slack = this.slack * view.scale;
    if (x1 + slack < 0 || x0 - slack > view.width) return;
    if (x1 - x0 + slack <= 1) {
      this.takeBucket(view, level, at, x0, x1, take);
    } else if (depth) {
      const end = Math.min((at + 1) * GROUP, this.levels[depth - 1].start.length);
      for (let child = at * GROUP; child < end; child++) this.walkBucket(view, from, depth - 1, child, take);
    } else {
      const data = this.block(level.row[at] >>> BLOCK_BITS);
      if (data) this.walkRows(view, data, level.row[at] & ((1 << BLOCK_BITS) - 1), level.count[at], take);
      else this.takeBucket(view, level, at, x0, x1, take);
    }
  }

  takeBucket(view, level, at, x0, x1, take) {
    const [left, right] = [Math.max(x0, -EDGE), Math.min(x1, view.width + EDGE)];
    take(left, right, level.first[at], level.least[at], level.greatest[at], level.last[at], level.count[at]);
  }

  walkRows(view, data, first, count, take) {
    const [starts, shift] = data.starts.from(view.anchor), [ends, endShift] = data.ends.from(view.anchor);
    const [values, add] = data.values.from(this.base);
    for (let at = first; at < first + count; at++) {
      const x0 = (starts[at] + shift - view.lo) * view.scale, x1 = (ends[at] + endShift - view.lo) * view.scale;
      if (x1 < 0 || x0 > view.width) continue;
      const value = values[at] + add;
      take(Math.max(x0, -EDGE), Math.min(x1, view.width + EDGE), value, value, value, value, 1);
    }
  }
}

// The last of so many places that a condition holds for, which holds for no place after one that it doesn't hold for; -1 if there is none.
function lastWhere(count, holds) {
  let low = -1, high = count;
  while (high - low > 1) {
    const middle = (low + high) >> 1;
    if (holds(middle)) low = middle;
    else high = middle;
  }
  return low;
}

function emptyLevel(count) {
  const level = { row: new Uint32Array(count), count: new Uint32Array(count) };
  for (const name of ["start", "end", "first", "least", "greatest", "last"]) level[name] = new Float64Array(count);
  return level;
}

// The lowest level, from the columns of a summary. Sums of wide columns are made of bigints, since each of numbers would be rounded.
function levelOf([gaps, lengths, counts, changes, below, above, more], time, value, exactTime, exactValue) {
  const level = emptyLevel(gaps.length);
  const wideTimes = isWide(gaps) || isWide(lengths), wideValues = isWide(changes) || isWide(more);
  const unsigned = (column) => (isWide(column) ? new BigUint64Array(column.buffer, column.byteOffset, column.length) : column);
  [below, above] = [unsigned(below), unsigned(above)];
  for (let at = 0, row = 0; at < gaps.length; at++) {
    if (wideTimes) {
      level.start[at] = Number((exactTime += BigInt(gaps[at])));
      level.end[at] = Number((exactTime += BigInt(lengths[at])));
    } else {
      level.start[at] = time += gaps[at];
      level.end[at] = time += lengths[at];
    }
    if (wideValues) {
      level.first[at] = Number((exactValue = BigInt.asUintN(64, exactValue + BigInt(changes[at]))));
      level.last[at] = Number((exactValue = BigInt.asUintN(64, exactValue + BigInt(more[at]))));
    } else {
      level.first[at] = value += changes[at];
      level.last[at] = value += more[at];
    }
    level.least[at] = level.first[at] - Number(below[at]);
    level.greatest[at] = level.first[at] + Number(above[at]);
    level.row[at] = row;
    level.count[at] = counts[at];
    row += counts[at];
  }
  return level;
}

function groupedLevel(lower) {
  const count = Math.ceil(lower.start.length / GROUP);
  const level = emptyLevel(count);
  for (let at = 0; at < count; at++) {
    const from = at * GROUP, end = Math.min(from + GROUP, lower.start.length);
    level.start[at] = lower.start[from];
    level.end[at] = lower.end[end - 1];
    level.first[at] = lower.first[from];
    level.last[at] = lower.last[end - 1];
    level.least[at] = Infinity;
    level.greatest[at] = -Infinity;
    for (let one = from; one < end; one++) {
      level.least[at] = Math.min(level.least[at], lower.least[one]);
      level.greatest[at] = Math.max(level.greatest[at], lower.greatest[one]);
      level.count[at] += lower.count[one];
    }
  }
  return level;
}
