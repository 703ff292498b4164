// Times and marks of the axes. The marks of the clock are those of axis.py; its steps and the changes of the zone come with the page.

const SECOND = 10n ** 9n, DAY = 86400n * SECOND, MONTH = 30n * DAY;

class Clock {
  constructor(fields, steps) {
    this.tick = BigInt(fields.tick);
    this.origin = BigInt(fields.origin);
    this.digits = fields.digits;
    this.zone = fields.zone;
    this.changes = fields.changes.map(([moment, shift]) => [BigInt(moment), BigInt(shift) * SECOND]);
    this.steps = steps.map(BigInt);
  }

  moment(tick) {
    return this.origin + tick * this.tick;
  }

  shiftAt(moment) {
    let shift = this.changes[0][1];
    for (const [from, later] of this.changes) if (from <= moment) shift = later;
    return shift;
  }

  // A moment in ISO 8601 with so many digits of a second; a moment that no date has is a text without one.
  text(moment, digits = this.digits) {
    const shift = this.shiftAt(moment);
    const local = moment + shift;
    const seconds = floorDiv(local, SECOND);
    const date = new Date(Number(seconds) * 1000);
    if (isNaN(date) || date.getUTCFullYear() < 1 || date.getUTCFullYear() > 9999) return `${moment} ns`;
    const fraction = digits ? "." + String(local - seconds * SECOND).padStart(9, "0").slice(0, digits) : "";
    return date.toISOString().slice(0, 19) + fraction + (this.zone ? offsetText(shift / SECOND) : "Z");
  }

  // The marks of an axis between two moments, of which there are at most about so many, and the text of the axis.
  axis(begin, end, most) {
    const first = this.text(begin, 0).slice(0, 10), last = this.text(end - 1n, 0).slice(0, 10);
    const step = this.steps.find((step) => (end - begin) / step <= BigInt(most)) || this.steps[this.steps.length - 1];
    const moments = step >= MONTH ? this.months(begin, end, Number(step / MONTH))
      : step >= DAY ? this.days(begin, end, step) : this.timesOfDay(begin, end, step);
    const digits = step % SECOND === 0n ? 0 : step % 10n ** 6n === 0n ? 3 : step % 1000n === 0n ? 6 : 9;
    let part = [11, digits ? 20 + digits : 19];
    if (step >= DAY) part = [0, step >= 12n * MONTH ? 4 : step >= MONTH ? 7 : 10];
    else if (step % (60n * SECOND) === 0n) part = [11, 16];
    const marks = moments.map((moment) => ({ moment, text: this.text(moment, digits).slice(...part) }));
    return { marks, label: `${first === last ? first : `${first} to ${last}`} (${this.zone || "UTC"})` };
  }

  // The midnights of a stretch, one for each step of whole days.
  days(begin, end, step) {
    const found = [];
    const last = end + this.shiftAt(end);
    for (let local = ceilDiv(begin + this.shiftAt(begin), step) * step; local <= last; local += step) {
      const moment = local - this.shiftOf(local);
      if (begin <= moment && moment <= end && moment !== found[found.length - 1]) found.push(moment);
    }
    return found;
  }

  // The midnights before the first days of months in a stretch, so many months apart.
  months(begin, end, count) {
    const found = [];
    const dates = [begin, end].map((moment) => new Date(Number(floorDiv(moment + this.shiftAt(moment), SECOND)) * 1000));
    const [first, last] = dates.map((date) => date.getUTCFullYear() * 12 + date.getUTCMonth());
    for (let month = Math.floor(first / count) * count; month <= last; month += count) {
      const local = BigInt(new Date(0).setUTCFullYear(Math.floor(month / 12), month - Math.floor(month / 12) * 12, 1)) * (SECOND / 1000n);
      const moment = local - this.shiftOf(local);
      if (month >= 12 && begin <= moment && moment <= end) found.push(moment);
    }
    return found;
  }

  // How far the clocks are before UTC at a local time: by the earlier clocks, if it is there twice or not at all.
  shiftOf(local) {
    for (let at = 0; at + 1 < this.changes.length; at++) {
      const [from] = this.changes[at + 1], [, shift] = this.changes[at], [, later] = this.changes[at + 1];
      if (local - shift < from || local - later < from) return shift;
    }
    return this.changes[this.changes.length - 1][1];
  }

  // The moments whose local time is a multiple of a step.
  timesOfDay(begin, end, step) {
    const found = [];
    this.changes.forEach(([from, shift], at) => {
      const until = at + 1 < this.changes.length ? this.changes[at + 1][0] : end + 1n;
      const start = at === 0 || from < begin ? begin : from;
      for (let moment = ceilDiv(start + shift, step) * step - shift; moment < until && moment <= end; moment += step) found.push(moment);
    });
    return found;
  }
}

function offsetText(seconds) {
  const size = seconds < 0n ? -seconds : seconds;
  const parts = [size / 3600n, (size / 60n) % 60n, size % 60n].map((part) => String(part).padStart(2, "0"));
  return (seconds < 0n ? "-" : "+") + (parts[2] === "00" ? parts.slice(0, 2) : parts).join(":");
}

// The marks of an axis of ticks.
function ticksAxis(lo, hi, most) {
  const length = (hi - lo) / BigInt(most) || 1n;
  const power = 10n ** BigInt(String(length).length - 1);
  const step = [1n, 2n, 5n, 10n].map((many) => many * power).find((step) => step >= length);
  const marks = [];
  for (let tick = ceilDiv(lo, step) * step; tick <= hi; tick += step) marks.push({ tick, text: tick.toLocaleString("en") });
  return { marks, label: "ticks" };
}

// The marks of an axis of values between two offsets from a base: whole numbers, whose texts have no more digits than the step needs.
function valueMarks(base, lo, hi, scale, most) {
  const step = valueStep((hi - lo) / most, scale);
  const digits = (decimalText(step, scale).split(".")[1] || "").replace(/0+$/, "").slice(0, 9).length;
  const low = base + BigInt(Math.floor(lo)), high = base + BigInt(Math.ceil(hi));
  const marks = [];
  for (let value = ceilDiv(low, step) * step; value <= high; value += step) {
    const [whole, part = ""] = decimalText(value, scale).split(".");
    const offset = Number(value - base);
    if (offset >= lo && offset <= hi) marks.push({ offset, text: digits ? `${whole}.${part.padEnd(digits, "0").slice(0, digits)}` : whole });
  }
  return marks;
}

// The smallest whole step of 1, 2 or 5 times a power of ten, as it is shown, that is at least a length.
function valueStep(length, scale) {
  const wanted = Math.max(length, 1e-300) / Number(scale);
  for (let power = Math.floor(Math.log10(wanted)); ; power++) {
    for (const many of [1n, 2n, 5n]) {
      if (Number(many) * 10 ** power < wanted * 0.999999) continue;
      const up = many * scale * 10n ** BigInt(Math.max(0, power)), down = 10n ** BigInt(Math.max(0, -power));
      if (up % down === 0n) return up / down;
    }
  }
}
