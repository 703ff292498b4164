// The page: what is in view, keys, gestures, the address, the values under the pointer, and the table of episodes.

const FAR = 2 ** 45, LEAST_SPAN = 3, ROWS = 200, READINGS = 60;

// The episodes: of each series in order, and of all together in the order of their starts.
class Episodes {
  constructor(lists, base) {
    this.base = base;
    this.given = lists;
    this.lists = lists.map(([series, starts, ends, lasts]) => {
      const numbers = (times) => {
        const [offsets, shift] = times.from(base);
        return shift ? offsets.map((offset) => offset + shift) : offsets;
      };
      const from = numbers(starts);
      return { series, lasts, exactStarts: starts, exactEnds: ends, starts: from, ends: numbers(ends), count: from.length };
    });
    this.count = this.lists.reduce((sum, { count }) => sum + count, 0);
    this.order = this.lists.length > 1 ? this.merged() : null;
  }

  static async open(fields, base) {
    const lists = fields.map((one, series) => ({ ...one, series })).filter((one) => one.episodes);
    const found = lists.map(async ({ series, episodes: [, start] }) => {
      const [gaps, lengths] = await columnsIn(`episodes-${series}`, 2);
      return [series, ...timesOf(BigInt(start), gaps, lengths)];
    });
    return new Episodes(await Promise.all(found), base);
  }

  // The list and the place in it of each episode.
  merged() {
    const order = [];
    this.lists.forEach((list) => {
      for (let at = 0; at < list.count; at++) order.push([list, at]);
    });
    return order.sort(([one, at], [other, place]) => one.starts[at] - other.starts[place] || one.series - other.series);
  }

  at(number) {
    const [list, at] = this.order ? this.order[number] : [this.lists[0], number];
    return { series: list.series, start: list.exactStarts.at(at), end: list.exactEnds.at(at), lasts: list.lasts && at + 1 === list.count };
  }

  of(series) {
    return this.lists.find((list) => list.series === series) || { count: 0 };
  }
}

class Page {
  constructor(fields) {
    this.lo = BigInt(fields.lo);
    this.hi = BigInt(fields.hi);
    this.clock = fields.clock && new Clock(fields.clock, fields.steps);
    this.series = fields.series.map((one, number) => {
      return one.live ? new LiveSeries(one, number, fields.live) : new Series(one, number, this.lo, () => this.redraw());
    });
    this.fields = fields;
    this.episodes = new Episodes([], this.lo);
    this.canvas = document.getElementById("chart");
    this.chart = new Chart(this.canvas, document.getElementById("overlay"), fields, this.series, this.clock);
    this.shown = [];
    for (const one of this.chart.panels.flat()) {
      if (!this.shown.some((other) => other.name === one.name && other.series === one.series)) this.shown.push(one);
    }
    this.view = { anchor: this.lo, lo: 0, span: Number(this.hi - this.lo) };
    this.cursor = null;
    this.rows = null;
    this.selected = null;
    this.firstRow = 0;
    this.frame = null;
    this.live = fields.live ? new Live(this, fields.live) : null;
  }

  async open() {
    [this.episodes] = await Promise.all([Episodes.open(this.fields.series, this.lo), ...this.series.map((one) => one.open())]);
    this.makeValues();
    this.fillEpisodes();
    this.goToPlace(location.hash);
    this.listen();
    this.draw();
    if (this.live) this.live.listen();
  }

  // What is in view.

  redraw() {
    if (this.frame === null) {
      this.frame = requestAnimationFrame(() => {
        this.frame = null;
        this.draw();
      });
    }
  }

  draw() {
    const { selected, episodes } = this;
    const picked = selected === null ? null : episodes.at(selected);
    const offset = (tick) => Number(tick - episodes.base);
    this.chart.draw(this.view, episodes, picked && { series: picked.series, start: offset(picked.start), end: offset(picked.end) });
    this.chart.drawCursor(this.cursor, this.rows);
    if (this.live) document.getElementById("follow").setAttribute("aria-pressed", this.live.follows);
  }

  // Shows a stretch that starts so many ticks after an anchor, as far as the page has it, and notes it in the address.
  show(anchor, lo, span, isNoted = true) {
    const whole = Number(this.hi - this.lo);
    span = Math.min(whole, Math.max(Math.min(LEAST_SPAN, whole), span));
    const least = Number(this.lo - anchor), most = Number(this.hi - anchor) - span;
    lo = Math.max(least, Math.min(most, lo));
    if (Math.abs(lo) > FAR || span >= FAR) {
      anchor += BigInt(Math.floor(lo));
      lo -= Math.floor(lo);
    }
    this.view = { anchor, lo, span };
    this.redraw();
    if (!isNoted) return;
    clearTimeout(this.noting);
    this.noting = setTimeout(() => this.noteAddress(), 150);
  }

  zoom(factor, share = 0.5) {
    const { anchor, lo, span } = this.view;
    const later = Math.min(Number(this.hi - this.lo), Math.max(LEAST_SPAN, span * factor));
    this.show(anchor, lo + (span - later) * share, later);
  }

  // Zooms around the cursor if it is in view, else around the middle, or around the end that is followed.
  zoomHere(factor) {
    const share = this.cursor === null ? -1 : (Number(this.cursor - this.view.anchor) - this.view.lo) / this.view.span;
    this.zoom(factor, share >= 0 && share <= 1 ? share : this.live && this.live.follows ? 1 : 0.5);
  }

  pan(share) {
    this.show(this.view.anchor, this.view.lo + share * this.view.span, this.view.span);
  }

  // The address.

  get edges() {
    const { anchor, lo, span } = this.view;
    return [anchor + BigInt(Math.floor(lo)), anchor + BigInt(Math.ceil(lo + span))];
  }

  noteAddress() {
    const [from, to] = this.edges;
    const at = this.cursor === null ? "" : `&at=${this.cursor}`;
    const stretch = this.live && this.live.follows ? `#last=${to - from}` : addressOf(from, to);
    const place = from <= this.lo && to >= this.hi && !at ? location.pathname + location.search : stretch + at;
    try {
      history.replaceState(null, "", place);
    } catch {
      // A page within another one may have no address of its own.
    }
  }

  // Goes to the place that an address names.
  goToPlace(hash) {
    const words = new URLSearchParams(hash.slice(1));
    const number = (name) => (/^-?\d{1,20}$/.test(words.get(name) || "") ? BigInt(words.get(name)) : null);
    const [from, to, at, last] = ["from", "to", "at", "last"].map(number);
    if (from !== null && to !== null && from < to) this.show(from, 0, Number(to - from));
    if (last !== null && last > 0n && this.live) this.live.follow(Number(last));
    if (at !== null) {
      const found = lastWhere(this.episodes.count, (number) => this.episodes.at(number).start <= at);
      this.select(found >= 0 && this.episodes.at(found).start === at ? found : null);
      this.setCursor(at);
    }
  }

  // The values under the cursor.

  makeValues() {
    const body = document.querySelector("#values tbody");
    for (const one of this.shown) {
      const row = body.insertRow();
      const name = row.insertCell();
      name.append(swatchOf(one), one.name);
      row.insertCell().className = "value";
      row.insertCell().className = "times";
      one.cells = [row.cells[1], row.cells[2]];
    }
  }

  // Puts the cursor to a place. `reading` is a promise that the values there are shown.
  setCursor(tick) {
    this.cursor = tick;
    return (this.reading = this.showValues(tick));
  }

  // Without a cursor, the values are the newest ones if rows arrive.
  async showValues(cursor) {
    if (cursor === null && !this.live) {
      this.rows = null;
      this.chart.drawCursor(null);
      return;
    }
    const asked = (this.asked = {}), tick = cursor === null ? this.live.now - 1n : cursor;
    const rows = new Map();
    for (const one of this.chart.panels.flat()) rows.set(one, await this.rowAt(one, tick));
    // Another place may have been asked for since.
    if (this.asked !== asked || this.cursor !== cursor) return;
    this.rows = cursor === null ? null : rows;
    this.chart.drawCursor(cursor, rows);
    const moment = document.getElementById("moment");
    const text = this.clock ? `${this.timeText(tick)}, tick ${tick + 1n}` : `tick ${tick + 1n}`;
    moment.textContent = cursor === null ? `Newest: ${text}` : text;
    for (const element of [moment, document.getElementById("values")]) element.classList.add("set");
    for (const one of this.shown) this.fillValue(one, rows.get(one));
  }

  // The row of a series that holds in the tick that starts at a place; of dots, else the nearest one within a few pixels.
  async rowAt(one, tick) {
    const { series } = one;
    const place = await series.placeAt(tick);
    const row = place && (await series.row(place));
    if (row && tick < row.end) return row;
    if (one.form !== "dots") return null;
    const near = [];
    for (const step of [0, 1]) {
      const other = place ? await series.row([place[0], place[1] + step]) : series.count && step ? await series.row([0, 0]) : null;
      if (other) near.push([Math.abs(Number(other.start - tick)), other]);
    }
    near.sort(([one], [other]) => one - other);
    const room = Math.max(1, (6 * this.chart.ratio) / (this.chart.view ? this.chart.view.scale : 1));
    return near.length && near[0][0] < room ? near[0][1] : null;
  }

  fillValue(one, row) {
    const [value, times] = one.cells;
    value.textContent = row ? decimalText(row.value, one.scale) + (one.unit && ` ${one.unit}`) : "no value";
    times.replaceChildren(...(row ? this.stretchText(row) : []));
  }

  timeText(tick) {
    return this.clock ? this.clock.text(this.clock.moment(tick)) : String(tick);
  }

  // From and to.
  stretchText(row) {
    return [document.createTextNode(this.timeText(row.start)), " ", document.createTextNode(`\u2013 ${this.endText(row)}`)];
  }

  // The end of a row or an episode; the day isn't said again.
  endText({ start, end, lasts }) {
    const from = this.timeText(start), to = this.timeText(end);
    return lasts ? "not over" : this.clock && sameDay(from, to) ? to.slice(11) : to;
  }

  // Goes from reading to reading of the first series that is a line or dots.
  async step(by) {
    const { series } = this.shown.find((one) => one.form !== "band") || this.shown[0];
    if (!series.count) return;
    const [from, to] = this.edges;
    const start = this.cursor === null ? (from + to) / 2n : this.cursor;
    const place = await series.placeAt(start);
    const row = await series.row(place ? [place[0], place[1] + (this.cursor === null ? 0 : by)] : [0, 0]);
    if (!row) return;
    await this.setCursor(row.start);
    const { anchor, lo, span } = this.view;
    const share = (Number(row.start - anchor) - lo) / span;
    if (share < 0 || share > 1) this.show(row.start, -span / 2, span);
    this.say(`${document.getElementById("moment").textContent}: ${this.shown.map((one) => `${one.name} ${one.cells[0].textContent}`).join(", ")}`);
  }

  say(text) {
    document.getElementById("status").textContent = text;
  }

  // The episodes.

  fillEpisodes() {
    const { episodes } = this, { count } = episodes;
    const body = document.querySelector("#episodes tbody");
    const bands = new Map(this.chart.panels.flat().filter((one) => one.form === "band").map((one) => [one.series.number, one]));
    const several = bands.size > 1;
    document.getElementById("band").hidden = !several;
    document.getElementById("episodes").hidden = !count;
    for (const button of document.querySelectorAll("button.episode")) button.hidden = !count;
    const title = bands.size === 1 ? `Episodes of ${bands.values().next().value.name}` : "Episodes";
    document.getElementById("listed").textContent = `${title}: ${count.toLocaleString("en")}`;
    if (this.clock) document.getElementById("length").textContent = "Length";
    const end = Math.min(count, this.firstRow + ROWS);
    body.replaceChildren();
    for (let at = this.firstRow; at < end; at++) {
      const one = episodes.at(at), row = body.insertRow();
      const band = bands.get(one.series);
      const link = document.createElement("a");
      const [from, to] = this.stretchOf(one);
      link.href = `${addressOf(from, to)}&at=${one.start}`;
      link.dataset.episode = at;
      link.textContent = this.timeText(one.start);
      row.insertCell().textContent = at + 1;
      if (several) row.insertCell().append(swatchOf(band), band.name);
      row.insertCell().append(link);
      row.insertCell().textContent = this.endText(one);
      const length = row.insertCell();
      length.textContent = one.lasts ? "" : this.lengthText(one.end - one.start);
      length.className = "number";
      if (at === this.selected) row.setAttribute("aria-current", "true");
    }
    document.querySelector(".pages").hidden = count <= ROWS;
    document.getElementById("which").textContent = `${this.firstRow + 1} to ${end}`;
    document.getElementById("earlier").disabled = this.firstRow === 0;
    document.getElementById("later").disabled = end === count;
  }

  // Takes other episodes. The one that is selected stays so, and the table is filled again only if it changes.
  replaceEpisodes(lists) {
    const { selected, firstRow, episodes: before } = this, picked = selected === null ? null : before.at(selected);
    const episodes = (this.episodes = new Episodes(lists, this.lo)), { count } = episodes;
    const found = picked ? lastWhere(count, (at) => episodes.at(at).start <= picked.start) : -1;
    this.selected = found < 0 ? null : found;
    if (firstRow + ROWS >= before.count || firstRow >= count) this.firstRow = Math.floor(Math.max(0, count - 1) / ROWS) * ROWS;
    const shown = Array.from({ length: Math.min(ROWS, count - this.firstRow) }, (_, at) => episodes.at(this.firstRow + at));
    const listed = `${count} ${shown.map(({ series, start, end, lasts }) => [series, start, lasts ? "" : end])}`;
    if (listed === this.listed) return;
    this.listed = listed;
    const focused = document.activeElement.dataset.episode;
    this.fillEpisodes();
    const link = focused && document.querySelector(`a[data-episode="${focused}"]`);
    if (link) link.focus({ preventScroll: true });
  }

  lengthText(ticks) {
    return this.clock ? `${decimalText(ticks * this.clock.tick, SECOND).replace(/\.?0+$/, "")} s` : String(ticks);
  }

  turn(by) {
    this.firstRow = Math.max(0, this.firstRow + by * ROWS);
    this.fillEpisodes();
  }

  // The episode in its surroundings: as much before and after it, and no less than some readings of the first series.
  stretchOf(one) {
    const length = one.end - one.start;
    const lead = (this.shown.find((other) => other.form !== "band") || this.shown[0]).series;
    const each = lead.count ? Number(this.hi - this.lo) / lead.count : 1;
    const room = BigInt(Math.ceil(Math.max(Number(length), (each * READINGS - Number(length)) / 2)));
    const from = one.start - room, to = one.end + room;
    return [from < this.lo ? this.lo : from, to > this.hi ? this.hi : to];
  }

  select(number) {
    this.selected = number;
    if (number !== null && (number < this.firstRow || number >= this.firstRow + ROWS)) {
      this.firstRow = Math.floor(number / ROWS) * ROWS;
      this.fillEpisodes();
    }
    for (const link of document.querySelectorAll("#episodes a")) {
      const current = Number(link.dataset.episode) === number;
      link.closest("tr").toggleAttribute("aria-current", false);
      if (!current) continue;
      link.closest("tr").setAttribute("aria-current", "true");
      this.scrollTo(link.closest("tr"));
    }
  }

  // Scrolls the table alone, so that a row is seen.
  scrollTo(row) {
    const table = document.querySelector("#episodes .scrolled"), head = table.querySelector("thead").offsetHeight;
    const top = row.offsetTop - table.querySelector("table").offsetTop;
    if (top - head < table.scrollTop) table.scrollTop = top - head;
    else if (top + row.offsetHeight > table.scrollTop + table.clientHeight) table.scrollTop = top + row.offsetHeight - table.clientHeight;
  }

  goTo(number) {
    const one = this.episodes.at(number);
    this.select(number);
    const [from, to] = this.stretchOf(one);
    this.show(from, 0, Number(to - from));
    this.setCursor(one.start);
    document.querySelector(".charts").scrollIntoView({ block: "nearest" });
    this.say(`Episode ${number + 1} of ${this.episodes.count}: from ${this.timeText(one.start)} ${one.lasts ? "on" : `to ${this.timeText(one.end)}`}`);
  }

  next(by) {
    const { episodes } = this, { count } = episodes;
    if (!count) return;
    if (this.selected !== null) {
      this.goTo(Math.max(0, Math.min(count - 1, this.selected + by)));
      return;
    }
    const [from, to] = this.edges;
    const found = by > 0 ? lastWhere(count, (at) => episodes.at(at).start < from) + 1 : lastWhere(count, (at) => episodes.at(at).start < to);
    this.goTo(Math.max(0, Math.min(count - 1, found)));
  }

  // Keys and gestures.

  press(key, shift) {
    const steps = { ArrowLeft: -1, ArrowRight: 1 };
    if (key in steps && shift) this.reading = this.step(steps[key]);
    else if (key in steps) this.pan(steps[key] * 0.15);
    else if (key === "PageUp" || key === "PageDown") this.pan(key === "PageUp" ? -0.9 : 0.9);
    else if (key === "+" || key === "=") this.zoomHere(0.5);
    else if (key === "-" || key === "_") this.zoomHere(2);
    else if (key === "Home") this.whole();
    else if (key === "n" || key === "p") this.next(key === "n" ? 1 : -1);
    else if (key === "Escape") this.leave();
    else if (key === "f" && this.live) this.live.follow(this.view.span);
    else return false;
    return true;
  }

  whole() {
    this.select(null);
    this.show(this.lo, 0, Number(this.hi - this.lo));
  }

  leave() {
    this.select(null);
    this.setCursor(null);
    this.redraw();
    this.noteAddress();
  }

  listen() {
    document.addEventListener("keydown", (event) => {
      if (event.ctrlKey || event.metaKey || event.altKey) return;
      const inTable = event.target.closest && event.target.closest("#episodes");
      if (inTable && (event.key === "ArrowUp" || event.key === "ArrowDown")) {
        this.moveInTable(event.target, event.key === "ArrowUp" ? -1 : 1);
        event.preventDefault();
      } else if (this.press(event.key, event.shiftKey)) {
        event.preventDefault();
      }
    });
    for (const button of document.querySelectorAll("button[data-key]")) {
      button.addEventListener("click", () => this.press(button.dataset.key, false));
    }
    document.getElementById("earlier").addEventListener("click", () => this.turn(-1));
    document.getElementById("later").addEventListener("click", () => this.turn(1));
    document.querySelector("#episodes tbody").addEventListener("click", (event) => {
      const row = event.target.closest("tr");
      if (!row || event.ctrlKey || event.metaKey || event.shiftKey) return;
      event.preventDefault();
      this.goTo(Number(row.querySelector("a").dataset.episode));
    });
    // The address may have been noted anew since.
    addEventListener("hashchange", (event) => this.goToPlace(new URL(event.newURL).hash));
    this.listenToPointers();
    const paper = matchMedia("print");
    const resized = () => {
      this.chart.resize(paper.matches);
      this.draw();
    };
    new ResizeObserver(resized).observe(this.canvas);
    paper.addEventListener("change", resized);
    matchMedia("(prefers-color-scheme: dark)").addEventListener("change", resized);
    addEventListener("afterprint", resized);
  }

  moveInTable(from, by) {
    const links = Array.from(document.querySelectorAll("#episodes a"));
    const to = links[links.indexOf(from) + by];
    if (to) to.focus();
  }

  listenToPointers() {
    const { canvas } = this, pointers = new Map();
    const shareOf = (x) => (x * this.chart.ratio - this.chart.left) / this.chart.width;
    canvas.addEventListener("wheel", (event) => {
      event.preventDefault();
      const size = event.deltaMode === 1 ? 16 : event.deltaMode === 2 ? 400 : 1;
      const across = event.shiftKey ? event.deltaY || event.deltaX : event.deltaX;
      if (Math.abs(across) > Math.abs(event.deltaY) || event.shiftKey) this.pan((across * size) / canvas.clientWidth);
      else this.zoom(2 ** (Math.max(-300, Math.min(300, event.deltaY * size)) / 150), Math.max(0, Math.min(1, shareOf(event.offsetX))));
    }, { passive: false });
    canvas.addEventListener("dblclick", (event) => this.zoom(0.5, shareOf(event.offsetX)));
    canvas.addEventListener("pointerdown", (event) => {
      canvas.setPointerCapture(event.pointerId);
      pointers.set(event.pointerId, event.offsetX);
    });
    canvas.addEventListener("pointermove", (event) => {
      if (!pointers.has(event.pointerId)) {
        this.point(event.offsetX);
        return;
      }
      const before = Array.from(pointers.values());
      pointers.set(event.pointerId, event.offsetX);
      this.follow(before, Array.from(pointers.values()), shareOf);
    });
    for (const kind of ["pointerup", "pointercancel"]) {
      canvas.addEventListener(kind, (event) => {
        pointers.delete(event.pointerId);
        this.point(event.offsetX);
      });
    }
  }

  // One finger or the mouse moves the view, and two fingers zoom it too: what was between them stays there. It is zoomed first, since the
  // whole can't be moved.
  follow(before, after, shareOf) {
    const middle = (places) => places.reduce((sum, place) => sum + place, 0) / places.length;
    const wide = (places) => Math.max(8, Math.abs(places[0] - places[1]));
    if (before.length > 1) this.zoom(wide(before) / wide(after), Math.max(0, Math.min(1, shareOf(middle(before)))));
    this.pan((-(middle(after) - middle(before)) * this.chart.ratio) / this.chart.width);
  }

  // Points at a place of the chart.
  point(x) {
    const tick = this.view.anchor + BigInt(Math.floor(this.chart.placeAt(x)));
    this.setCursor(tick < this.lo ? this.lo : tick >= this.hi ? this.hi - 1n : tick);
    clearTimeout(this.noting);
    this.noting = setTimeout(() => this.noteAddress(), 150);
  }
}

function sameDay(one, other) {
  return one.slice(0, 11) === other.slice(0, 11);
}

function addressOf(from, to) {
  return `#from=${from}&to=${to}`;
}

function swatchOf(one) {
  const swatch = document.createElement("span");
  swatch.className = "swatch";
  const name = one.form === "limit" ? "--limit" : one.form === "band" ? `--band-${one.number % 3}` : `--line-${one.number % 6}`;
  swatch.style.background = `var(${name})`;
  return swatch;
}

const page = new Page(JSON.parse(document.getElementById("page").textContent));
// For scripts: the page, and a promise of how many milliseconds it took until it was drawn.
window.tiltView = { page, decimalText, opened: page.open().then(() => performance.now()) };
window.tiltView.opened.catch((error) => {
  const status = document.getElementById("status");
  status.className = "wrong";
  status.textContent = `This page can't be shown: ${error.message}. It needs a browser of 2023 or later.`;
});
