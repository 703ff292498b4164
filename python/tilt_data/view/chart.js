// What is drawn: panels of lines, dots, limits and bands above one axis of time.

const TOP = 24, GAP = 14, BOTTOM = 40, RIGHT = 14, MARKS = 9;
// How wide a line and how high a panel is at least, in pixels.
const SEEN = 2.5, PANEL = 110;
// So many dots have marks of their own, and a line of so many corners has no dashes: they couldn't be told.
const MANY = 400, CORNERS = 1500;
// Lines and dots of different names differ by their dashes and their marks too, and bands by their hatching.
const DASHES = [[], [7, 3], [2, 3], [9, 3, 2, 3], [14, 4], [4, 2, 1, 2]];

// How many numbers there are of each extent: from, to, the first, least, greatest and last value, and how many rows it has.
const STRIDE = 7;

// What is drawn of one series, joined by pixel: a line has a point for each extent, and breaks at gaps of more than a pixel.
class Traced {
  constructor() {
    this.room = new Float64Array(STRIDE * 4096);
    this.count = 0;
    this.least = Infinity;
    this.greatest = -Infinity;
  }

  take(x0, x1, first, least, greatest, last, rows) {
    let room = this.room;
    const before = (this.count - 1) * STRIDE;
    this.least = Math.min(this.least, least);
    this.greatest = Math.max(this.greatest, greatest);
    if (this.count && x1 - x0 <= 1 && x0 - room[before + 1] <= 1 && x1 - room[before] <= 1) {
      room[before + 1] = x1;
      room[before + 3] = Math.min(room[before + 3], least);
      room[before + 4] = Math.max(room[before + 4], greatest);
      room[before + 5] = last;
      room[before + 6] += rows;
      return;
    }
    if ((this.count + 1) * STRIDE > room.length) {
      this.room = new Float64Array(room.length * 2);
      this.room.set(room);
      room = this.room;
    }
    const at = this.count++ * STRIDE;
    room[at] = x0;
    room[at + 1] = x1;
    room[at + 2] = first;
    room[at + 3] = least;
    room[at + 4] = greatest;
    room[at + 5] = last;
    room[at + 6] = rows;
  }

  // The path of the steps. A stretch that is too narrow to be seen is drawn wider.
  line(path, yOf, least) {
    const { room, count } = this;
    let begin = 0, end = 0;
    for (let at = 0; at < count * STRIDE; at += STRIDE) {
      const x0 = room[at], x1 = room[at + 1];
      if (at === 0 || x0 - end > 1) {
        if (at && end - begin < least) path.lineTo(begin + least, yOf(room[at - STRIDE + 5]));
        path.moveTo(x0, yOf(room[at + 2]));
        begin = x0;
      } else {
        path.lineTo(x0, yOf(room[at + 2]));
      }
      if (room[at + 3] !== room[at + 4]) {
        const middle = (x0 + x1) / 2;
        path.lineTo(middle, yOf(room[at + 3]));
        path.lineTo(middle, yOf(room[at + 4]));
      }
      path.lineTo(x1, yOf(room[at + 5]));
      end = x1;
    }
    if (count && end - begin < least) path.lineTo(begin + least, yOf(room[(count - 1) * STRIDE + 5]));
  }

  // Hands over the range of values of each place that has more rows than dots.
  ranges(mark) {
    const { room, count } = this;
    for (let at = 0; at < count * STRIDE; at += STRIDE) if (room[at + 6] > 4) mark(room[at], room[at + 3], room[at + 4]);
  }

  dots(mark) {
    const { room, count } = this;
    for (let at = 0; at < count * STRIDE; at += STRIDE) {
      const values = new Set([room[at + 2], room[at + 3], room[at + 4], room[at + 5]]);
      for (const value of values) mark(room[at], value);
    }
  }
}

// A mark of a dot: a circle, a square, a triangle, a diamond.
function markAt(path, number, x, y, size) {
  const kind = number % 4;
  if (kind === 0) {
    path.moveTo(x + size, y);
    path.arc(x, y, size, 0, 2 * Math.PI);
  } else if (kind === 1) {
    path.rect(x - size, y - size, 2 * size, 2 * size);
  } else {
    path.moveTo(x, y - 1.3 * size);
    path.lineTo(x + 1.2 * size, kind === 2 ? y + size : y);
    if (kind === 3) path.lineTo(x, y + 1.3 * size);
    path.lineTo(x - 1.2 * size, kind === 2 ? y + size : y);
    path.closePath();
  }
}

class Chart {
  constructor(canvas, overlay, page, series, clock) {
    this.canvas = canvas;
    this.overlay = overlay;
    this.series = series;
    this.clock = clock;
    this.panels = page.panels.map((panel) => panel.map((one) => ({ ...one, scale: BigInt(one.scale), series: series[one.series] })));
    setDashes(this.panels);
    canvas.parentElement.style.minHeight = `${Math.max(320, this.panels.length * PANEL + BOTTOM)}px`;
    this.resize(false);
  }

  // Takes over the size of the element and the colours of its style. On paper it is drawn finer, and on one canvas: the upper one would
  // cover the lower.
  resize(paper) {
    this.paper = paper;
    const ratio = Math.max(window.devicePixelRatio || 1, paper ? 2 : 1);
    const { clientWidth, clientHeight } = this.canvas;
    for (const canvas of [this.canvas, this.overlay]) {
      canvas.width = Math.round(clientWidth * ratio);
      canvas.height = Math.round(clientHeight * ratio);
    }
    this.ratio = ratio;
    const style = getComputedStyle(document.documentElement);
    this.colours = (name) => style.getPropertyValue(name).trim();
    this.lines = [0, 1, 2, 3, 4, 5].map((number) => this.colours(`--line-${number}`));
    this.bands = [0, 1, 2].map((number) => this.colours(`--band-${number}`));
    this.font = `${12 * ratio}px system-ui, "DejaVu Sans", sans-serif`;
    this.left = 56 * ratio;
  }

  get width() {
    return Math.max(10, this.canvas.width - this.left - RIGHT * this.ratio);
  }

  colourOf(one) {
    if (one.form === "limit") return this.colours("--limit");
    return one.form === "band" ? this.bands[one.number % 3] : this.lines[one.number % 6];
  }

  // Draws a stretch: `lo` ticks after the anchor, and so many ticks long. The episodes are starts and ends in ticks after `base`.
  draw(stretch, episodes, selected) {
    const context = this.canvas.getContext("2d");
    const { ratio } = this;
    context.clearRect(0, 0, this.canvas.width, this.canvas.height);
    context.font = this.font;
    const height = (this.canvas.height - BOTTOM * ratio) / this.panels.length - GAP * ratio;
    const view = { anchor: stretch.anchor, lo: stretch.lo, span: stretch.span };
    this.fitLeft(context, height, view);
    view.width = this.width;
    view.scale = view.width / stretch.span;
    const time = this.timeMarks(stretch, context);
    this.places = [];
    this.panels.forEach((panel, at) => {
      const top = at * (height + GAP * ratio) + TOP * ratio;
      const area = { top, height: height - (TOP - GAP) * ratio };
      this.drawPanel(context, panel, area, view, time, episodes, selected);
    });
    this.drawTime(context, time, view);
    this.view = view;
  }

  // The room at the left is that of the longest text of the axes of values; it depends on what is in view.
  fitLeft(context, height, view) {
    view.width = this.width;
    view.scale = view.width / view.span;
    this.traced = this.panels.map((panel) => panel.map((one) => (one.form === "band" ? null : this.trace(one, view))));
    this.ranges = this.panels.map((panel, at) => this.rangeOf(panel, this.traced[at], height));
    let widest = 30 * this.ratio;
    for (const { marks } of this.ranges) for (const { text } of marks) widest = Math.max(widest, context.measureText(text).width);
    const left = Math.ceil(widest + 14 * this.ratio);
    // Room that is a little too wide stays, so that the axis of time doesn't move with each step.
    if (left > this.left || left < this.left - 40 * this.ratio) {
      this.left = left;
      view.width = this.width;
      view.scale = view.width / view.span;
      this.traced = this.panels.map((panel) => panel.map((one) => (one.form === "band" ? null : this.trace(one, view))));
    }
  }

  trace(one, view) {
    const traced = new Traced();
    one.series.walk(view, traced.take.bind(traced));
    return traced;
  }

  // The values from the bottom to the top of a panel, as offsets from the base of its first series, and their marks.
  rangeOf(panel, traced, height) {
    const drawn = panel.map((one, at) => [one, traced[at]]).filter(([, its]) => its && its.count);
    const lead = (drawn[0] || [panel[0]])[0];
    let lo = Infinity, hi = -Infinity;
    for (const [one, its] of drawn) {
      const offset = this.offsetOf(one, lead);
      lo = Math.min(lo, offset(its.least));
      hi = Math.max(hi, offset(its.greatest));
    }
    if (lo > hi) [lo, hi] = [0, Number(lead.scale)];
    const room = hi > lo ? (hi - lo) * 0.08 : Math.max(1, Number(lead.scale) * 0.5);
    [lo, hi] = [lo - room, hi + room];
    const most = Math.max(2, Math.min(6, Math.floor(height / (30 * this.ratio))));
    const marks = drawn.length ? valueMarks(lead.series.base, lo, hi, lead.scale, most) : [];
    return { lead, lo, hi, marks };
  }

  // Offsets of one series as offsets of another: they differ by their bases, and by their scales.
  offsetOf(one, lead) {
    if (one.scale === lead.scale) {
      const shift = Number(one.series.base - lead.series.base);
      return (offset) => offset + shift;
    }
    const base = Number(one.series.base), leadBase = Number(lead.series.base), factor = Number(lead.scale) / Number(one.scale);
    return (offset) => (base + offset) * factor - leadBase;
  }

  drawPanel(context, panel, area, view, time, episodes, selected) {
    const number = this.places.length, { ratio } = this, { lead, lo, hi, marks } = this.ranges[number];
    const yOf = (offset) => area.top + area.height - ((offset - lo) / (hi - lo)) * area.height;
    this.drawGrid(context, area, time, marks.map(({ offset, text }) => ({ y: yOf(offset), text })));
    context.save();
    context.beginPath();
    context.rect(this.left, area.top, view.width, area.height + ratio);
    context.clip();
    panel.forEach((one) => one.form === "band" && this.drawBand(context, one, area, view, episodes, selected));
    context.translate(this.left, 0);
    const offsets = panel.map((one) => this.offsetOf(one, lead));
    panel.forEach((one, at) => {
      if (one.form !== "band") this.drawOne(context, one, this.traced[number][at], (offset) => yOf(offsets[at](offset)));
    });
    context.restore();
    this.drawLegend(context, panel, area);
    this.places.push({ ...area, yOf, offsets, panel });
  }

  drawGrid(context, area, time, marks) {
    const { ratio } = this;
    context.strokeStyle = this.colours("--grid");
    context.lineWidth = ratio;
    context.beginPath();
    for (const { y } of marks) {
      context.moveTo(this.left, Math.round(y) + 0.5);
      context.lineTo(this.canvas.width - RIGHT * ratio, Math.round(y) + 0.5);
    }
    for (const { x } of time.marks) {
      context.moveTo(Math.round(this.left + x) + 0.5, area.top);
      context.lineTo(Math.round(this.left + x) + 0.5, area.top + area.height);
    }
    context.stroke();
    context.strokeStyle = this.colours("--axis");
    context.beginPath();
    context.moveTo(this.left + 0.5, area.top);
    context.lineTo(this.left + 0.5, area.top + area.height + 0.5);
    context.lineTo(this.canvas.width - RIGHT * ratio, area.top + area.height + 0.5);
    context.stroke();
    context.fillStyle = this.colours("--text");
    context.textAlign = "right";
    context.textBaseline = "middle";
    for (const { y, text } of marks) context.fillText(text, this.left - 7 * ratio, y);
  }

  drawOne(context, one, traced, yOf) {
    const { ratio } = this;
    context.beginPath();
    if (one.form === "dots") {
      context.fillStyle = this.colourOf(one);
      if (traced.count > MANY) {
        // Many marks are small squares: one path of them all takes seconds.
        const size = 2.4 * ratio;
        context.globalAlpha = 0.35;
        traced.ranges((x, least, greatest) => context.fillRect(x - ratio / 2, yOf(greatest), ratio, yOf(least) - yOf(greatest)));
        context.globalAlpha = 1;
        traced.dots((x, value) => context.fillRect(x - size / 2, yOf(value) - size / 2, size, size));
        return;
      }
      traced.dots((x, value) => markAt(context, one.number, x, yOf(value), 2.6 * ratio));
      context.fill();
      return;
    }
    traced.line(context, yOf, SEEN * ratio);
    this.setLine(context, one, traced.count);
    context.stroke();
    context.setLineDash([]);
  }

  setLine(context, one, corners) {
    const { ratio } = this;
    context.strokeStyle = this.colourOf(one);
    context.lineWidth = (one.form === "limit" ? 1.6 : one.dash ? 2 : 1.2) * ratio;
    context.lineJoin = "bevel";
    const dash = one.form === "limit" ? [6, 4] : DASHES[one.dash % 6];
    context.setLineDash(corners > CORNERS ? [] : dash.map((length) => length * ratio));
  }

  // The episodes of a band. None is narrower than two pixels; what is nearer is joined.
  drawBand(context, one, area, view, episodes, selected) {
    const { ratio } = this;
    const its = episodes.of(one.series.number);
    const from = Number(view.anchor - episodes.base) + view.lo;
    const first = Math.max(0, lastWhere(its.count, (at) => its.ends[at] <= from) + 1);
    const bands = [];
    for (let at = first, last = null; at < its.count; at++) {
      const x0 = (its.starts[at] - from) * view.scale, x1 = Math.max(x0 + 2 * ratio, (its.ends[at] - from) * view.scale);
      if (x0 > view.width) break;
      if (last !== null && x0 <= last.end) last.end = Math.max(last.end, Math.min(x1, view.width + EDGE));
      else bands.push((last = { start: Math.max(x0, -EDGE), end: Math.min(x1, view.width + EDGE) }));
    }
    context.fillStyle = this.filling(context, one);
    for (const { start, end } of bands) context.fillRect(this.left + start, area.top, end - start, area.height);
    // A strip in the full colour shows also what is short.
    context.fillStyle = this.colourOf(one);
    for (const { start, end } of bands) context.fillRect(this.left + start, area.top, end - start, 4 * ratio);
    if (selected !== null && selected.series === one.series.number) {
      const x0 = (selected.start - from) * view.scale, x1 = Math.max(x0 + ratio, (selected.end - from) * view.scale);
      context.strokeStyle = this.colours("--text");
      context.lineWidth = 1.5 * ratio;
      context.strokeRect(this.left + Math.max(x0, -4), area.top + ratio, Math.min(x1, view.width + 4) - Math.max(x0, -4), area.height - 2 * ratio);
    }
  }

  // The colour of a band, with hatching if it isn't the first.
  filling(context, one) {
    const { ratio } = this, colour = this.colourOf(one), size = Math.round(8 * ratio);
    const tile = document.createElement("canvas");
    tile.width = tile.height = size;
    const drawn = tile.getContext("2d");
    drawn.fillStyle = drawn.strokeStyle = colour;
    drawn.globalAlpha = 0.38;
    drawn.fillRect(0, 0, size, size);
    drawn.globalAlpha = 0.8;
    drawn.lineWidth = 1.2 * ratio;
    for (const slope of [[], [1], [1, -1]][one.number % 3]) {
      for (const shift of [-size, 0, size]) {
        drawn.moveTo(shift, slope > 0 ? size : 0);
        drawn.lineTo(shift + size, slope > 0 ? 0 : size);
      }
    }
    drawn.stroke();
    return context.createPattern(tile, "repeat");
  }

  drawLegend(context, panel, area) {
    const { ratio } = this;
    let x = this.left;
    const y = area.top - 9 * ratio;
    context.textAlign = "left";
    context.textBaseline = "middle";
    for (const one of panel) {
      const text = one.unit ? `${one.name} (${one.unit})` : one.name;
      this.drawKey(context, one, x, y);
      context.fillStyle = this.colours("--text");
      const room = this.canvas.width - x - 30 * ratio;
      context.fillText(fitted(context, text, room), x + 28 * ratio, y);
      x += 46 * ratio + context.measureText(text).width;
      if (x > this.canvas.width - 60 * ratio) break;
    }
  }

  // The sample of a line, a dot or a band.
  drawKey(context, one, x, y) {
    const { ratio } = this;
    context.beginPath();
    if (one.form === "band") {
      context.fillStyle = this.filling(context, one);
      context.fillRect(x, y - 5 * ratio, 22 * ratio, 10 * ratio);
    } else if (one.form === "dots") {
      markAt(context, one.number, x + 11 * ratio, y, 3 * ratio);
      context.fillStyle = this.colourOf(one);
      context.fill();
    } else {
      this.setLine(context, one, 0);
      context.moveTo(x, y);
      context.lineTo(x + 22 * ratio, y);
      context.stroke();
      context.setLineDash([]);
    }
  }

  timeMarks(stretch, context) {
    const most = Math.max(2, Math.min(MARKS, Math.floor(this.width / (90 * this.ratio))));
    const { anchor, lo, span } = stretch;
    const scale = this.width / span;
    const low = anchor + BigInt(Math.floor(lo)), high = anchor + BigInt(Math.ceil(lo + span));
    if (!this.clock) {
      const { marks, label } = ticksAxis(low, high, most);
      return { label, marks: within(marks.map(({ tick, text }) => ({ x: (Number(tick - anchor) - lo) * scale, text })), this.width) };
    }
    const { clock } = this, origin = clock.moment(anchor);
    const { marks, label } = clock.axis(clock.moment(low), clock.moment(high), most);
    const placed = marks.map(({ moment, text }) => ({ x: (Number(moment - origin) / Number(clock.tick) - lo) * scale, text }));
    return { label, marks: within(placed, this.width) };
  }

  drawTime(context, time, view) {
    const { ratio } = this;
    const y = this.canvas.height - (BOTTOM - 4) * ratio;
    context.fillStyle = this.colours("--text");
    context.textBaseline = "top";
    context.textAlign = "left";
    let free = 0;
    for (const { x, text } of time.marks) {
      const width = context.measureText(text).width;
      const place = Math.max(0, Math.min(this.left + x - width / 2, this.canvas.width - width));
      if (place < free) continue;
      context.fillText(text, place, y);
      free = place + width + 8 * ratio;
    }
    context.textAlign = "center";
    context.fillText(time.label, this.left + view.width / 2, y + 17 * ratio);
  }

  // Draws the cursor, and on it the values that are under it.
  drawCursor(tick, rows) {
    const context = (this.paper ? this.canvas : this.overlay).getContext("2d");
    if (!this.paper) context.clearRect(0, 0, this.overlay.width, this.overlay.height);
    if (tick === null || !this.places) return;
    const { ratio, view } = this;
    const xOf = (tick) => this.left + (Number(tick - view.anchor) - view.lo) * view.scale;
    const x = xOf(tick);
    if (x < this.left - 1 || x > this.canvas.width - RIGHT * ratio + 1) return;
    context.strokeStyle = this.colours("--text");
    context.lineWidth = ratio;
    context.setLineDash([3 * ratio, 3 * ratio]);
    context.beginPath();
    context.moveTo(Math.round(x) + 0.5, TOP * ratio);
    context.lineTo(Math.round(x) + 0.5, this.canvas.height - BOTTOM * ratio);
    context.stroke();
    context.setLineDash([]);
    for (const { panel, yOf, offsets } of this.places) {
      panel.forEach((one, at) => {
        const row = rows && rows.get(one);
        if (!row || one.form === "band") return;
        context.beginPath();
        context.arc(one.form === "dots" ? xOf(row.start) : x, yOf(offsets[at](Number(row.value - one.series.base))), 4 * ratio, 0, 2 * Math.PI);
        context.fillStyle = this.colours("--ground");
        context.strokeStyle = this.colourOf(one);
        context.lineWidth = 2 * ratio;
        context.fill();
        context.stroke();
      });
    }
  }

  // The place in ticks after the anchor that is under a place of the element.
  placeAt(x) {
    return this.view.lo + (x * this.ratio - this.left) / this.view.scale;
  }
}

// A name has the dashes of its place among the lines of the first panel that it is in.
function setDashes(panels) {
  const dashes = new Map();
  for (const panel of panels) {
    let place = 0;
    for (const one of panel.filter(({ form }) => form === "step" || form === "dots")) {
      if (!dashes.has(one.name)) dashes.set(one.name, place);
      one.dash = dashes.get(one.name);
      place++;
    }
  }
}

function within(marks, width) {
  return marks.filter(({ x }) => x >= -0.5 && x <= width + 0.5);
}

// A text that is cut if it is wider than the room.
function fitted(context, text, room) {
  if (context.measureText(text).width <= room) return text;
  const signs = Array.from(text);
  const count = lastWhere(signs.length, (at) => context.measureText(signs.slice(0, at).join("") + "…").width <= room);
  return signs.slice(0, Math.max(0, count)).join("") + "…";
}
